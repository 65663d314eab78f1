// Made by bindings/rust/make of crates/hashbag_slots/src/slots/find.rt. Change that, or what `make` reads.
use crate::rattle::prelude::*;
// Look-ups by a key: by a reference to a value, or by what names a value. In clauses `HoldsAt` says that the slot at a place has a value that the
// key names, and `IsAbsent` that no slot has one. `IsReached`: a probe finds each value of the table by its hash.
// `hash_under ..` is the hash under a state.

use crate::made::hashbag_slots::group::match_tag;
use crate::made::hashbag_slots::key::Key;
pub use crate::made::hashbag_slots::probe::MOST_CACHED;
use crate::made::hashbag_slots::probe::{Probed, find_large, find_place, find_small, probe_path};
use crate::made::hashbag_slots::slots::{Slot, Slots, hash_of};
use crate::made::hashbag_slots::tags::EMPTY;
use std::hash::{BuildHasher, Hash};

impl<T: Eq + Hash> Slots<T> {
    // Returns the place of the Live slot whose value a key names, or `None` if there is none.
    //
    // # Complexity
    //
    // It hashes the key once, under the state that hashed the table's values, and probes once, past Removed and Moved slots.
    #[inline(always)]
    pub fn find<S: BuildHasher, Q: Key<T>>(&self, state: &S, key: Q) -> Option<usize>
    {
        let hash = hash_of(state, key);
        self.find_hashed(state, hash, key)
    }

    // Finds as [`Slots::find`] does, with the key's hash under the state. It hashes nothing.
    #[inline(always)]
    pub fn find_hashed<S: BuildHasher, Q: Key<T>>(
        &self,
        state: &S,
        hash: u64,
        key: Q,
    ) -> Option<usize>
    {
        find_place(self.tags.as_slice(), self.slots, &self.cells, hash, key)
    }

    // Finds as [`Slots::find_hashed`] does, in a table of `mask + 1` slots.
    #[inline(always)]
    pub fn find_small<Q: Key<T>>(&self, mask: usize, hash: u64, key: Q) -> Option<usize>
    {
        find_small(self.tags.as_slice(), mask, &self.cells, hash, key)
    }

    // Finds as [`Slots::find_hashed`] does, in a table of any size, as it is best in a large one.
    #[inline(always)]
    pub fn find_large<Q: Key<T>>(&self, hash: u64, key: Q) -> Option<usize>
    {
        find_large(self.tags.as_slice(), self.slots, &self.cells, hash, key)
    }

    // Returns whether one of the 16 slots from the place `from` on is Empty: the place after the last one of them, or 0.
    #[inline(always)]
    pub fn after_last_empty(&self, from: usize) -> usize
    {
        let empty = match_tag(self.tags.as_slice(), from, EMPTY);
        if empty == 0 {
            return 0;
        }
        from + 64 - empty.leading_zeros() as usize
    }

    // Returns the home of a hash.
    #[inline(always)]
    pub fn home(&self, hash: u64) -> usize
    {
        hash as usize & (self.slots - 1)
    }

    // Returns what a probe along the path of a key's hash shows. Mostly the first 16 slots decide.
    //
    // - `Found`: the place of the Live slot whose value the key names.
    // - `Absent`: no slot has the value, and this is the first place on the path whose slot is not Live, for [`Slots::place_at`].
    // - `Full`: no slot has the value, and none is free.
    #[inline(always)]
    pub fn probe_path<S: BuildHasher, Q: Key<T>>(&self, state: &S, hash: u64, key: Q) -> Probed
    {
        probe_path(
            self.tags.as_slice(),
            self.slots,
            &self.cells,
            state,
            hash,
            key,
        )
    }
}
