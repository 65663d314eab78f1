//! What a value is looked up by: a reference to anything that it can be borrowed as. By hand: the source has `&T`, `&str` and `&[U]`.
use std::borrow::Borrow;
use std::hash::Hash;

/// A key that names values. Keys that name one value hash as it does.
pub trait Key<T: Eq + Hash>: Copy + Hash {
    /// Returns whether this key names the value.
    fn names(&self, value: &T) -> bool;
}

impl<T: Eq + Hash + Borrow<Q>, Q: Eq + Hash + ?Sized> Key<T> for &Q {
    #[inline(always)]
    fn names(&self, value: &T) -> bool {
        value.borrow() == *self
    }
}
