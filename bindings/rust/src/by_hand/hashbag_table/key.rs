//! Keys from which a value can be built. By hand: the source has `&str` and `&[U]`.
pub use crate::made::hashbag_slots::key::Key;
use crate::rattle::{AllocError, Global};
use std::borrow::Borrow;
use std::hash::Hash;

/// A key from which the value that it names can be built.
pub trait ToValue<T: Eq + Hash>: Key<T> {
    /// Returns the value.
    fn to_value(self, alloc: Global) -> Result<T, AllocError>;
}

impl<T: Eq + Hash + Borrow<Q>, Q: Eq + Hash + ?Sized + ToOwned<Owned = T>> ToValue<T> for &Q {
    fn to_value(self, _: Global) -> Result<T, AllocError> {
        Ok(self.to_owned())
    }
}
