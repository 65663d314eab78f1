// Made by bindings/rust/make of crates/hashbag_table/src/table/resize.rt. Change that, or what `make` reads.
use crate::rattle::prelude::*;
// Room: a table that grows, carries what waits, or gets other slots on request.

use crate::made::hashbag_table::capacity::{grown_slots, least_slots, no_slots};
use crate::made::hashbag_table::table::{MOST_VALUES, NOT_QUICK, Table, quick_of};
use crate::made::hashbag_slots::slots::{Slot, Slots};
use crate::rattle::{AllocError, Global};
use std::hash::{BuildHasher, Hash};
use std::mem;

// How many slots one insertion of an absent value carries.
const CARRIED_AT_ONCE: usize = 16;

// Carries the next `most` waiting slots of the older table into the newer one, or all if there are fewer. Returns how many slots of the older table
// were carried so far. If no slot waits any more, the older table is freed, and the returned number is 0.
//
// It hashes each value that it carries once, and doesn't allocate. If the older table has no slots, it does nothing.
fn carry_next<T: Eq + Hash, S: BuildHasher>(
    newer: &mut Slots<T>,
    older: &mut Slots<T>,
    carried_to: usize,
    most: usize,
    hasher: &S,
    alloc: Global,
) -> usize
{
    let slots = older.slots();
    if slots == 0 {
        return 0;
    }
    // Only for the proof: it uses the contract of `slots`.
    let _slots = newer.slots();
    let many = (slots - carried_to).min(most);
    newer.carry_from(hasher, older, carried_to, many);
    if carried_to + many == slots {
        let _freed = mem::replace(older, no_slots(alloc));
        return 0;
    }
    carried_to + many
}

// Returns `edge` after a carry. `last` is the place after the last Empty slot among those that were carried, 0 if none of them is Empty.
#[inline(always)]
fn edge_after(edge: usize, last: usize, carried_to: usize) -> usize
{
    if carried_to == 0 {
        return 0;
    }
    if last > 0 {
        return last;
    }
    edge
}

impl<T: Eq + Hash, S: BuildHasher> Table<T, S> {
    // Carries the next 16 waiting slots. It doesn't allocate.
    #[inline(never)]
    fn carry(&mut self)
    {
        let last = self.older.after_last_empty(self.carried_to);
        self.carried_to = carry_next(
            &mut self.newer,
            &mut self.older,
            self.carried_to,
            CARRIED_AT_ONCE,
            &self.hasher,
            self.alloc,
        );
        self.edge = edge_after(self.edge, last, self.carried_to);
        self.newer.prefetch_carry(&self.older, self.carried_to);
        self.quick = quick_of(self.newer.slots(), self.older.slots());
    }

    // Carries the next 16 waiting slots, if some wait. `place` is the first place on some path whose slot isn't Live; the first such place after the carry
    // is returned. It doesn't allocate.
    pub(super) fn carry_past(&mut self, place: usize) -> usize
    {
        if self.older.slots() == 0 {
            return place;
        }
        self.carry();
        self.newer.free_from(place)
    }

    // Carries all slots that wait. A look-up then probes one table alone. The entries stay. If no slot waits, it does nothing.
    //
    // # Complexity
    //
    // It hashes each waiting value once, reads the waiting slots once, frees them, and doesn't allocate.
    pub fn finish_carry(&mut self)
    {
        let waiting = self.older.slots() - self.carried_to;
        self.carried_to = carry_next(
            &mut self.newer,
            &mut self.older,
            self.carried_to,
            waiting,
            &self.hasher,
            self.alloc,
        );
        self.edge = 0;
        self.quick = quick_of(self.newer.slots(), self.older.slots());
        self.at_once = 0;
    }

    // Makes `newer` the newer table. No other method gives an existing `Table` new slots. The former newer table becomes the older one: its first
    // `many` slots are carried at once, and its other slots wait. The former older table, of which no slot waits, is freed. The slots of `newer`
    // count as built. It doesn't allocate.
    fn adopt(&mut self, newer: Slots<T>, many: usize)
    {
        self.built.raise(newer.slots());
        // First, since these numbers are of the former tables: if a hash panics in the carry, where a type allows that, they are right all the same.
        self.edge = 0;
        self.quick = NOT_QUICK;
        self.at_once = 0;
        let former = mem::replace(&mut self.newer, newer);
        let _freed = mem::replace(&mut self.older, former);
        self.carried_to = carry_next(
            &mut self.newer,
            &mut self.older,
            0,
            many,
            &self.hasher,
            self.alloc,
        );
        self.quick = quick_of(self.newer.slots(), self.older.slots());
    }

    // Grows, if there is no room left: makes a new table, and carries the first 16 slots into it. If an allocation fails, the table is unchanged.
    #[inline(never)]
    fn grow(&mut self) -> Result<(), AllocError>
    {
        self.finish_carry();
        let grown = grown_slots(self.newer.slots(), self.newer.live())?;
        let newer = Slots::with_slots(self.alloc, grown)?;
        self.adopt(newer, CARRIED_AT_ONCE);
        Ok(())
    }

    // Prepares the tables for an absent value. Without room they grow. With room the next 16 waiting slots are carried, if there are some; this
    // doesn't allocate.
    pub(super) fn carry_or_grow(&mut self) -> Result<(), AllocError>
    {
        if self.room() > 0 {
            if self.older.slots() > 0 {
                self.carry();
            }
            return Ok(());
        }
        self.grow()
    }

    // Moves every value into `newer`, and makes it the newer table. All slots of `newer` must be Empty, with room for all values. It frees both
    // former tables, and doesn't allocate. It hashes each value once, and once more if it waited: while values move, each is in one of the two tables.
    pub(super) fn move_all_into(&mut self, newer: Slots<T>)
    {
        self.finish_carry();
        let many = self.slots();
        self.adopt(newer, many);
    }

    // Makes room for `n` more distinct values. The entries stay.
    //
    // # Errors
    //
    // `AllocError` if an allocation fails, or if there would be more than [`MOST_VALUES`] distinct values. The table is then unchanged.
    //
    // # Complexity
    //
    // If there is enough room, it does nothing. Else it allocates the least table of slots that has the room, and is not smaller than the
    // newer one. Every value is moved into that table and hashed once, a waiting one twice. The former tables are freed.
    pub fn reserve(&mut self, n: usize) -> Result<(), AllocError>
    {
        let slots = self.newer.slots();
        if n <= self.room() {
            return Ok(());
        }
        let values = self.set_len();
        if n > MOST_VALUES - values {
            return Err(AllocError);
        }
        let least = least_slots(slots, values + n)?;
        let newer = Slots::with_slots(self.alloc, least)?;
        self.move_all_into(newer);
        Ok(())
    }

    // Frees slots that the entries don't need. The entries stay. A table without entries is left with no slots.
    //
    // # Errors
    //
    // `AllocError` if the allocation of a smaller table fails. The table is then unchanged.
    //
    // # Complexity
    //
    // If the least table of slots in which the entries have room is smaller than the newer one, that least table is allocated. Every value is moved
    // into it and hashed once, a waiting one twice, and the former tables are freed. Else the call does nothing. Without entries it allocates nothing.
    pub fn shrink_to_fit(&mut self) -> Result<(), AllocError>
    {
        let least = least_slots(0, self.set_len())?;
        if least >= self.newer.slots() {
            return Ok(());
        }
        let newer = Slots::with_slots(self.alloc, least)?;
        self.move_all_into(newer);
        Ok(())
    }
}
