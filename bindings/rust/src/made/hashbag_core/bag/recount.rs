// Made by bindings/rust/make of crates/hashbag_core/src/bag/recount.rt. Change that, or what `make` reads.
use crate::rattle::prelude::*;
// How the count of a value is set.

use crate::made::hashbag_core::bag::{BagError, HashBag};
use crate::made::hashbag_table::Table;
use std::hash::{BuildHasher, Hash};

// Sets the count of a present value, or removes it if the new count is 0, and returns the count before in `Ok`. If the value is absent, or its count
// would rise by more than `more`, nothing changes, and the count is returned in `Err`: 0 if the value is absent.
fn set_or_remove<T: Eq + Hash, S: BuildHasher>(
    table: &mut Table<T, S>,
    value: &T,
    n: usize,
    more: usize,
) -> Result<usize, usize>
{
    if n > 0 {
        match table.set_count(value, n, more) {
            Ok(before) => return Ok(before),
            Err(before) => return Err(before),
        }
    }
    match table.remove(value) {
        Some((former, before)) => {
            drop(former);
            return Ok(before);
        }
        None => return Err(0),
    }
}

impl<T: Eq + Hash, S: BuildHasher> HashBag<T, S> {

    // Sets the count of a value to `n`, and returns the count before. A present value keeps its stored instance, and the given one is dropped. An
    // absent value is inserted. With 0 the value is removed.
    //
    // # Errors
    //
    // - `TooMany` exactly if the total, with `n` in the place of the count before, would pass the limit. That is tested first.
    // - `Memory` if `n` isn't 0, the value is absent, there is no room, and an allocation fails.
    //
    // Then the bag is unchanged, and the value is dropped.
    //
    // # Complexity
    //
    // It hashes the value twice, and once if it returns `TooMany`. It allocates only if it inserts the value and there is no room. If it
    // inserts it, up to 16 slots of an older table are carried, and each value in them is hashed once.
    //
    // # Examples
    //
    // ```
    // let mut bag = HashBag::new(alloc);
    // bag.set_count("apple", 3)?; // 0
    // bag.set_count("apple", 1)?; // 3
    // bag.set_count("apple", 0)?; // 1
    // bag.contains(&"apple"); // 0
    // Ok(())
    // ```
    pub fn set_count(&mut self, value: T, n: usize) -> Result<usize, BagError>
    {
        let before = self.contains(&value);
        if before == 0 {
            return self.insert_many(value, n);
        }
        if n > self.most - (self.len - before) {
            return Err(BagError::TooMany);
        }
        match self.recount(&value, n) {
            Ok(count) => return Ok(count),
            Err(_) => return Err(BagError::TooMany),
        }
    }

    // Sets the count of a present value, or removes it if the new count is 0, and returns the count before in `Ok`. One look-up finds what is compared
    // with the limit and what is changed. `Err`: nothing changed, since the value is absent (0), or the total would pass the limit.
    pub(crate) fn recount(&mut self, value: &T, n: usize) -> Result<usize, usize>
    {
        match set_or_remove(&mut self.table, value, n, self.most - self.len) {
            Ok(before) => {
                self.len = self.len - before + n;
                return Ok(before);
            }
            Err(before) => return Err(before),
        }
    }
}
