//! What the crate needs of a bag's fields. By hand: the source knows no panic, and its clone hashes each value.
use super::HashBag;
use crate::rattle::AllocError;
use std::hash::{BuildHasher, Hash};

impl<T, S> HashBag<T, S> {
    /// Counts the total anew, after a panic of a value's own code between the change of a count and of the total.
    #[cold]
    pub(crate) fn count_anew(&mut self) {
        self.len = self.table.total();
    }

    /// Returns a copy.
    pub(crate) fn copy(&self) -> Result<HashBag<T, S>, AllocError>
    where
        T: Clone + Hash,
        S: Clone + BuildHasher,
    {
        Ok(HashBag { table: self.table.copy()?, len: self.len, most: self.most })
    }
}
