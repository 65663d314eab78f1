// Made by bindings/rust/make of crates/hashbag_slots/src/slots/carry.rt. Change that, or what `make` reads.
use crate::rattle::prelude::*;
// The carry of an older table's values into a newer one, sixteen slots at once.

use crate::made::hashbag_slots::group::{GROUP_WIDTH, match_live, take_lowest};
use crate::made::hashbag_slots::slots::{Slots, hash_of};
use crate::made::hashbag_slots::tags::{LEAST_LIVE, MOVED};
use std::hash::{BuildHasher, Hash};

impl<T> Slots<T> {
    // Returns whether the slot at a place is Live.
    #[inline(always)]
    fn is_live_at(&self, place: usize) -> bool
    {
        self.tags[place] >= LEAST_LIVE
    }

    // Returns a mask of the 16 slots from the place `from` on: bit i is set if the slot at `from + i` is Live.
    #[inline(always)]
    fn live_among(&self, from: usize) -> u64
    {
        match_live(self.tags.as_slice(), from)
    }
}

impl<T: Eq + Hash> Slots<T> {
    // Carries what is in one slot of the older table: a Live value is placed here, and its slot there becomes Moved.
    #[inline(always)]
    fn carry_slot<S: BuildHasher>(&mut self, state: &S, older: &mut Slots<T>, at: usize)
    {
        if older.is_live_at(at) {
            // The value is hashed before it is taken: no code of its type runs while it is in neither table.
            let (key, _) = older.live_at(at);
            let hash = hash_of(state, key);
            let (value, n) = older.take_leaving(at, MOVED);
            let place = self.first_free_wide(hash);
            self.place_at(place, state, hash, value, n);
        }
    }

    // Carries what is in 16 slots of the older table, from the place `from` on. It reads their tags at once. The processor can't predict which of
    // them are Live, so a branch for each slot would cost more.
    #[inline(always)]
    fn carry_group<S: BuildHasher>(&mut self, state: &S, older: &mut Slots<T>, from: usize)
    {
        // Only for the proof: it uses the clauses `value` and `bound` of `slots`.
        let _slots = older.slots();
        let mut ahead = older.live_among(from);
        'live: while ahead != 0 {
            let (place, rest) = take_lowest(ahead, from);
            self.carry_slot(state, older, place);
            ahead = rest;
        }
    }

    // Carries `many` slots of an older table, from the place `from` on: each Live value is placed here as by `place`, with its count, and its slot
    // there becomes Moved. All other slots of both tables are unchanged. No value may be Live in both tables, and the values of both must fit here.
    //
    // # Complexity
    //
    // It hashes and probes once for each value that it carries.
    pub fn carry_from<S: BuildHasher>(
        &mut self,
        state: &S,
        older: &mut Slots<T>,
        from: usize,
        many: usize,
    )
    {
        // Only for the proof: it uses the clauses `value` and `bound` of `slots`.
        let _slots = older.slots();
        let end = from + many;
        let mut at = from;
        'places: while at < end {
            if at + GROUP_WIDTH <= end {
                self.carry_group(state, older, at);
                at += GROUP_WIDTH;
            } else {
                self.carry_slot(state, older, at);
                at += 1;
            }
        }
    }
}
