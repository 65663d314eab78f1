// Made by bindings/rust/make of crates/hashbag_table/src/table/make.rt. Change that, or what `make` reads.
use crate::rattle::prelude::*;
// How tables are made: empty ones, with room, and clones.

use crate::made::hashbag_table::built::Built;
use crate::made::hashbag_table::capacity::{least_slots, no_slots};
use crate::made::hashbag_table::table::{MOST_VALUES, NOT_QUICK, Table, quick_of};
use crate::made::hashbag_slots::slots::{Slot, Slots};
use crate::rattle::{AllocError, Global};
use std::hash::{BuildHasher, Hash};

impl<T: Eq + Hash, S: BuildHasher> Table<T, S> {

    // Returns an empty table without slots, whose values `hasher` hashes. It doesn't allocate.
    pub fn new(alloc: Global, hasher: S) -> Table<T, S>
    {
        let newer = no_slots(alloc);
        let older = no_slots(alloc);
        Table {
            newer,
            older,
            carried_to: 0,
            edge: 0,
            quick: NOT_QUICK,
            at_once: 0,
            hasher,
            alloc,
            built: Built::first(0),
            lent: [],
        }
    }

}

impl<T, S> Table<T, S> {
    // Returns an empty table with room for `n` distinct values, which `hasher` hashes. It has the least number of slots with that room.
    //
    // # Errors
    //
    // `AllocError` if the allocation fails, or if `n` is more than [`MOST_VALUES`]. With `n` 0 it doesn't allocate and can't fail.
    pub fn with_room(alloc: Global, hasher: S, n: usize) -> Result<Table<T, S>, AllocError>
    {
        let slots = least_slots(0, n)?;
        let newer = Slots::with_slots(alloc, slots)?;
        let older = no_slots(alloc);
        Ok(Table {
            newer,
            older,
            carried_to: 0,
            edge: 0,
            quick: quick_of(slots, 0),
            at_once: 0,
            hasher,
            alloc,
            built: Built::first(slots),
            lent: [],
        })
    }
}

impl<T: Eq + Hash, S: BuildHasher> Table<T, S> {
    // Returns a table with clones of all entries, under a clone of the state. The caller ensures that clones of the values equal them.
    //
    // # Errors
    //
    // `AllocError` if an allocation fails, or the clone of a value or of the state. Then there is no new table.
    //
    // # Complexity
    //
    // It allocates the least table of slots in which all entries have room, and hashes each clone once.
    pub fn clone_in(&self) -> Result<Table<T, S>, AllocError>
    where
        T: TryClone,
        S: TryClone,
    {
        let hasher = self.hasher().try_clone()?;
        let mut table = Table::with_room(self.alloc, hasher, self.set_len())?;
        for (value, count) in self.walk() {
            let clone = value.try_clone()?;
            table.place_new(clone, count);
        }
        Ok(table)
    }
}
