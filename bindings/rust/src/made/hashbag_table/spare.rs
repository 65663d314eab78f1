// Made by bindings/rust/make of crates/hashbag_table/src/spare.rt. Change that, or what `make` reads.
use crate::rattle::prelude::*;
// `Spare`: slots that were allocated, and that no table uses yet.

use crate::made::hashbag_slots::slots::blank::Blank;

// Slots that are allocated ahead: [`Table::use_spare`](crate::made::hashbag_table::table::Table::use_spare) moves all values into them without allocating.
// Nothing is written to them before that.
//
// Contracts see a spare as the number of its slots, all of which are Empty. Dropping a spare frees them.
pub struct Spare<T> {
    // The slots, to which nothing was written.
    pub(crate) blank: Blank<T>,
}

impl<T> Spare<T> {
    // Returns the number of slots.
    pub fn slots(&self) -> usize
    {
        self.blank.slots()
    }
}
