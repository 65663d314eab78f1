// Made by bindings/rust/make of crates/hashbag_slots/src/slots/blank.rt. Change that, or what `make` reads.
use crate::rattle::prelude::*;
// `Blank`: memory for a table of slots, allocated ahead.

use crate::made::hashbag_slots::cells::{Cells, Owner};
use crate::made::hashbag_slots::slots::{Slot, Slots};
use crate::made::hashbag_slots::tags::{EMPTY, GUARDS, MOVED};
use crate::rattle::{AllocError, Global};

// Memory for a table of Empty slots. The tags are written when the table is made, so a `Blank` that isn't used costs no more than its allocation.
//
// Contracts see the number of slots.
pub struct Blank<T> {
    // No tag is written yet. There is room for those of the slots and the guards.
    tags: Vec<u8>,
    slots: usize,
    cells: Cells<(T, usize)>,
}

impl<T> Blank<T> {
    // Allocates memory for `n` slots.
    //
    // # Errors
    //
    // `AllocError` if an allocation fails.
    pub fn with_slots(alloc: Global, n: usize) -> Result<Blank<T>, AllocError>
    {
        let tags = Vec::with_capacity(alloc, n + GUARDS)?;
        let cells = Cells::new(alloc, n)?;
        Ok(Blank {
            tags,
            slots: n,
            cells,
        })
    }

    // Returns the number of slots.
    pub fn slots(&self) -> usize
    {
        self.slots
    }

    // Returns the table, whose slots are Empty. It doesn't allocate.
    pub fn into_slots(self) -> Slots<T>
    {
        let Blank {
            mut tags,
            slots,
            mut cells,
        } = self;
        if slots > 0 {
            tags.resize(slots, EMPTY).unwrap();
            tags.resize(slots + GUARDS, MOVED).unwrap();
        }
        Slots {
            tags: Owner::over(tags, &mut cells),
            cells,
            slots,
            live: 0,
            removed: 0,
        }
    }
}
