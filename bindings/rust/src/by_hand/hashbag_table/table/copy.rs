//! Copies of a table. By hand: the source's clone hashes each value.
use super::Table;
use crate::made::hashbag_table::built::Built;
use crate::rattle::AllocError;
use std::hash::{BuildHasher, Hash};

impl<T, S> Table<T, S> {
    /// Returns a copy under a clone of the state, slot by slot: a slot that waits to be carried waits in the copy too.
    ///
    /// That supposes, as std's tables do, that a clone of the state hashes alike. If it doesn't for the first value, each value is hashed and placed
    /// anew.
    pub(crate) fn copy(&self) -> Result<Table<T, S>, AllocError>
    where
        T: Clone + Hash,
        S: Clone + BuildHasher,
    {
        let hasher = self.hasher.clone();
        if let Some((value, _)) = self.walk().next()
            && self.hasher.hash_one(value) != hasher.hash_one(value)
        {
            return self.copy_by_hashes(hasher);
        }
        let (newer, older) = (self.newer.copy(self.alloc)?, self.older.copy(self.alloc)?);
        let built = Built::first(newer.slots());
        Ok(Table { newer, older, hasher, built, ..*self })
    }

    /// Returns a copy under another state, as the source's clone makes it: in the least table with room, each value hashed once.
    fn copy_by_hashes(&self, hasher: S) -> Result<Table<T, S>, AllocError>
    where
        T: Clone + Hash,
        S: BuildHasher,
    {
        let mut table = Table::with_room(self.alloc, hasher, self.set_len())?;
        for (value, count) in self.walk() {
            table.newer.place(&table.hasher, value.clone(), count);
        }
        Ok(table)
    }

    /// Returns the sum of all counts.
    pub(crate) fn total(&self) -> usize {
        self.walk().fold(0, |sum: usize, (_, count)| sum.saturating_add(count))
    }
}
