// Made by bindings/rust/make of crates/hashbag_table/src/table/spare.rt. Change that, or what `make` reads.
use crate::rattle::prelude::*;
// Spare slots of a table: allocated ahead, and taken into use later.

use crate::made::hashbag_table::capacity::least_slots;
use crate::made::hashbag_table::spare::Spare;
use crate::made::hashbag_table::table::{MOST_VALUES, Table};
use crate::made::hashbag_slots::slots::blank::Blank;
use crate::rattle::AllocError;
use std::hash::{BuildHasher, Hash};

impl<T: Eq + Hash, S: BuildHasher> Table<T, S> {
    // Allocates the slots that [`Table::reserve`] would build for `n` more distinct values, and leaves them unused.
    //
    // # Errors
    //
    // `AllocError` if the allocation fails, or if there would be more than [`MOST_VALUES`].
    pub fn spare(&self, n: usize) -> Result<Spare<T>, AllocError>
    {
        let slots = self.newer.slots();
        let values = self.set_len();
        if n > MOST_VALUES - values {
            return Err(AllocError);
        }
        let least = least_slots(slots, values + n)?;
        let blank = Blank::with_slots(self.alloc, least)?;
        Ok(Spare { blank })
    }

    // Moves all values into spare slots. The slots of both tables are freed, and the entries stay.
    //
    // # Complexity
    //
    // Every value is moved and hashed once, a waiting one twice. It doesn't allocate.
    pub fn use_spare(&mut self, spare: Spare<T>)
    {
        let Spare { blank } = spare;
        self.move_all_into(blank.into_slots());
    }
}
