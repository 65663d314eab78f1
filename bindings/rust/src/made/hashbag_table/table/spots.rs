// Made by bindings/rust/make of crates/hashbag_table/src/table/spots.rt. Change that, or what `make` reads.
use crate::rattle::prelude::*;
// Look-ups: the spot of a value in the two tables of slots, what is there, and what is changed there.

use crate::made::hashbag_table::table::{Spot, Table};
use crate::made::hashbag_slots::key::Key;
use crate::made::hashbag_slots::slots::find::MOST_CACHED;
use crate::made::hashbag_slots::slots::{Probed, Slot, Slots, hash_of};
use std::hash::{BuildHasher, Hash};

// Stores another equal instance at a place, with the count 1, and returns the former one.
fn store_once<T>(slots: &mut Slots<T>, place: usize, value: T) -> T
{
    let former = slots.put_at(place, value);
    slots.set_at(place, 1);
    former
}

// Returns the place in the older table of the value that a key names, if its home isn't before `edge`.
#[inline(always)]
fn find_waiting<T: Eq + Hash, S: BuildHasher, Q: Key<T>>(
    older: &Slots<T>,
    edge: usize,
    state: &S,
    hash: u64,
    key: Q,
) -> Option<usize>
{
    if older.slots() == 0 || older.home(hash) < edge {
        return None;
    }
    older.find_hashed(state, hash, key)
}

impl<T: Eq + Hash, S: BuildHasher> Table<T, S> {
    // Returns the hash of a key under the table's own state. A hash under another state wouldn't find the value.
    #[inline(always)]
    pub(super) fn hash<Q: Key<T>>(&self, key: Q) -> u64
    {
        hash_of(&self.hasher, key)
    }

    // Returns the stored instance of the value that a key names and its count, or `None` if there is none.
    //
    // # Complexity
    //
    // It hashes the key once for both tables and doesn't allocate.
    #[inline(always)]
    pub fn get<Q: Key<T>>(&self, key: Q) -> Option<(&T, usize)>
    {
        let hash = self.hash(key);
        let mask = self.quick;
        if mask < MOST_CACHED {
            match self.newer.find_small(mask, hash, key) {
                Some(place) => return Some(self.newer.live_at(place)),
                None => return None,
            }
        }
        if self.older.slots() == 0 {
            match self.newer.find_large(hash, key) {
                Some(place) => return Some(self.newer.live_at(place)),
                None => return None,
            }
        }
        match self.spot_slow(hash, key) {
            Some(Spot::Newer(place)) => Some(self.newer.live_at(place)),
            Some(Spot::Waiting(place)) => {
                // Only for the proof: it uses the clauses `value` and `bound` of `Slots::slots`.
                let _slots = self.older.slots();
                Some(self.older.live_at(self.carried_to + place))
            }
            None => None,
        }
    }

    // Returns the spot of the value that a key names, in tables of any size. While slots wait, most values are in the older table, if it still has those
    // of their home.
    #[cold]
    #[inline]
    fn spot_slow<Q: Key<T>>(&self, hash: u64, key: Q) -> Option<Spot>
    {
        if let Some(place) = find_waiting(&self.older, self.edge, &self.hasher, hash, key) {
            return Some(Spot::Waiting(place - self.carried_to));
        }
        match self.newer.find_hashed(&self.hasher, hash, key) {
            Some(place) => Some(Spot::Newer(place)),
            None => None,
        }
    }

    // Returns the spot in the older table of the value that a key names. The newer table must not have the value.
    #[inline(always)]
    fn waiting_spot<Q: Key<T>>(&self, hash: u64, key: Q) -> Option<Spot>
    {
        match find_waiting(&self.older, self.edge, &self.hasher, hash, key) {
            Some(place) => Some(Spot::Waiting(place - self.carried_to)),
            None => None,
        }
    }

    // Returns the spot of the value that a key names. `hash` is the key's hash.
    #[inline(always)]
    pub(super) fn spot_of<Q: Key<T>>(&self, hash: u64, key: Q) -> Option<Spot>
    {
        let mask = self.quick;
        if mask < MOST_CACHED {
            match self.newer.find_small(mask, hash, key) {
                Some(place) => return Some(Spot::Newer(place)),
                None => return None,
            }
        }
        if self.older.slots() == 0 {
            match self.newer.find_large(hash, key) {
                Some(place) => return Some(Spot::Newer(place)),
                None => return None,
            }
        }
        self.spot_slow(hash, key)
    }

    // Returns the spot of the value that a key names. `first` is what a probe of the newer table showed. Unless that was the value, the newer table isn't
    // probed again.
    #[inline(always)]
    pub(super) fn spot_after_probe<Q: Key<T>>(
        &self,
        hash: u64,
        key: Q,
        first: Probed,
    ) -> Option<Spot>
    {
        match first {
            Probed::Found(_) => return self.spot_of(hash, key),
            Probed::Absent(_) => return self.waiting_spot(hash, key),
            Probed::Full => return self.waiting_spot(hash, key),
        }
    }

    // Returns what a probe of the newer table along a key's path shows.
    #[inline(always)]
    pub(super) fn probe_path<Q: Key<T>>(&self, hash: u64, key: Q) -> Probed
    {
        self.show_invariant();
        self.newer.probe_path(&self.hasher, hash, key)
    }

    // Sets the count of the value at a spot.
    #[inline(always)]
    pub(super) fn set_spot(&mut self, spot: Spot, n: usize)
    {
        // Only for the proof: it uses the clauses `value` and `bound` of `Slots::slots`.
        let _slots = self.older.slots();
        if let Spot::Newer(place) = spot {
            self.newer.set_at(place, n);
            return;
        }
        if let Spot::Waiting(place) = spot {
            self.older.set_at(self.carried_to + place, n);
        }
    }

    // Removes the value at a spot, and leaves Removed there.
    pub(super) fn take_spot(&mut self, spot: Spot) -> (T, usize)
    {
        // Only for the proof: it uses the clauses `value` and `bound` of `Slots::slots`.
        let _slots = self.older.slots();
        match spot {
            Spot::Newer(place) => {
                let entry = self.newer.take_at(place);
                return entry;
            }
            Spot::Waiting(place) => {
                let entry = self.older.take_at(self.carried_to + place);
                return entry;
            }
        }
    }

    // Returns the count of the value at a spot.
    #[inline(always)]
    pub(super) fn count_at(&self, spot: Spot) -> usize
    {
        // Only for the proof: it uses the clauses `value` and `bound` of `Slots::slots`.
        let _slots = self.older.slots();
        match spot {
            Spot::Newer(place) => {
                let (_, count) = self.newer.live_at(place);
                return count;
            }
            Spot::Waiting(place) => {
                let (_, count) = self.older.live_at(self.carried_to + place);
                return count;
            }
        }
    }

    // Adds to the count of the value at a spot, and returns the count before.
    #[inline(always)]
    pub(super) fn raise_spot(&mut self, spot: Spot, n: usize) -> usize
    {
        let before = self.count_at(spot);
        self.set_spot(spot, before + n);
        before
    }

    // Stores another equal instance at a spot, with the count 1, and returns the former one.
    pub(super) fn put_spot(&mut self, spot: Spot, value: T) -> T
    {
        // Only for the proof: it uses the clauses `value` and `bound` of `Slots::slots`.
        let _slots = self.older.slots();
        match spot {
            Spot::Newer(place) => {
                let former = store_once(&mut self.newer, place, value);
                return former;
            }
            Spot::Waiting(place) => {
                let former = store_once(&mut self.older, self.carried_to + place, value);
                return former;
            }
        }
    }
}
