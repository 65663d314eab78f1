// Made by bindings/rust/make of crates/hashbag_slots/src/slots.rt. Change that, or what `make` reads.
use crate::rattle::prelude::*;
// `Slots`: one table of slots with open addressing, which holds distinct values, each with a count.
//
// A table has no slots, or a power of two from 16 to 2^59 of them. A place is the index of a slot. A probe for a value begins at the value's 64-bit
// hash modulo the number of slots. It reads slot after slot, slot 0 after the last one. It ends at an Empty slot, or at a Live one with an equal
// value. So a value is found if no Empty slot is before the value's own on that path. Every call keeps this, and says so by `IsReached`.
//
// In clauses `hash_under ..` is the hash under a state. `Places` says that the value is now Live in a slot that wasn't Live, and no other slot
// changed.
//
// Costs are counted in hashes and in probes; a probe reads a value's path, sixteen slots at once. A call hashes nothing and doesn't
// allocate unless its comment says so.
//
// Contracts here also say in which slot a value is. Contracts of public calls in the crates above don't.

#[path = "../../by_hand/hashbag_slots/slots/carried.rs"]
mod carried;
#[path = "../../by_hand/hashbag_slots/slots/copy.rs"]
mod copy;
#[path = "../../by_hand/hashbag_slots/slots/drops.rs"]
mod drops;
pub mod blank;
mod carry;
pub mod find;

use crate::made::hashbag_slots::cells::{Cells, Owner};
use crate::made::hashbag_slots::live::{drop_if_live, next_live};
use self::drops::MadeEmpty;
pub use crate::made::hashbag_slots::probe::Probed;
use crate::made::hashbag_slots::probe::first_free;
use crate::made::hashbag_slots::tags::{LEAST_LIVE, REMOVED, empty_tags, fingerprint_of, make_all_empty};
use crate::made::hashbag_slots::walk::{Course, IntoWalk, OwnedCourse, Walk};
use crate::rattle::{AllocError, Global};
use std::hash::{BuildHasher, Hash};

// What a slot holds, as contracts see it.
pub enum Slot<T> {
    // Nothing, and nothing since the table was made or cleared: a probe ends here.
    Empty,
    // Nothing: its value was removed. A probe goes on.
    Removed,
    // Nothing: its value was carried to a newer table. A probe goes on.
    Moved,
    // A value and its count, which is at least 1. A probe goes on if the value isn't the sought one.
    Live(T, usize),
}

// Returns the 64-bit hash of a key under a state.
#[inline(always)]
pub fn hash_of<Q: Hash + Copy, S: BuildHasher>(state: &S, key: Q) -> u64
{
    state.hash_one(key)
}

// A table of slots. No two Live slots have equal values.
//
// Contracts see its slots in the order of their places, and their tags. `IsReached`, which says that values are found under a hash, depends on the
// tags. Each call requires and ensures `IsReached`. A table that is dropped drops each of its values once.
pub struct Slots<T> {
    // The tags of the slots, and the guards.
    tags: Owner,
    cells: Cells<(T, usize)>,
    slots: usize,
    live: usize,
    removed: usize,
}

impl<T> Slots<T> {
    // Returns a table of `n` Empty slots.
    //
    // # Errors
    //
    // `AllocError` if an allocation fails. With `n` 0 it can't fail.
    //
    // # Complexity
    //
    // It allocates a byte and a cell for each slot, nothing with `n` 0.
    pub fn with_slots(alloc: Global, n: usize) -> Result<Slots<T>, AllocError>
    {
        let tags = empty_tags(alloc, n)?;
        let mut cells = Cells::new(alloc, n)?;
        Ok(Slots {
            tags: Owner::over(tags, &mut cells),
            cells,
            slots: n,
            live: 0,
            removed: 0,
        })
    }

    // Returns the number of slots.
    #[inline]
    pub fn slots(&self) -> usize
    {
        self.slots
    }

    // Returns the number of Live slots, and so of values.
    pub fn live(&self) -> usize
    {
        self.live
    }

    // Returns the number of Removed slots.
    pub fn removed(&self) -> usize
    {
        self.removed
    }

    // Returns a reference to the value at a place, with its count, or `None` if the slot is not Live.
    #[inline(always)]
    pub fn at(&self, place: usize) -> Option<(&T, usize)>
    {
        if self.tags[place] < LEAST_LIVE {
            return None;
        }
        let entry = self.cells.get(place);
        Some((&entry.0, entry.1))
    }

    // Returns a reference to the value at a place, with its count. The slot must be Live; its tag isn't read.
    #[inline(always)]
    pub fn live_at(&self, place: usize) -> (&T, usize)
    {
        let (value, count) = self.cells.get(place);
        (value, *count)
    }

    // Returns the first place from `from` on whose slot is Live, or `None` if there is none. It reads sixteen tags at once.
    #[inline(always)]
    pub fn next_live(&self, from: usize) -> Option<usize>
    {
        next_live(&self.tags.as_slice()[..self.slots], from)
    }

    // Sets the count of the value at a place to `n`. The slot must be Live.
    #[inline(always)]
    pub fn set_at(&mut self, place: usize, n: usize)
    {
        let (value, _) = self.cells.take(place);
        self.cells.put(place, (value, n));
    }

    // Adds `n` to the count of the value at a place. The slot must be Live, and the sum must fit a `usize`. In this repository only tests call it.
    #[inline(always)]
    pub fn add_at(&mut self, place: usize, n: usize)
    {
        let (value, count) = self.cells.take(place);
        self.cells.put(place, (value, count + n));
    }

    // Replaces the value at a place by an equal instance, keeps its count, and returns the former instance. It hashes nothing: equal values
    // have one hash.
    pub fn put_at(&mut self, place: usize, value: T) -> T
    {
        let (former, count) = self.cells.take(place);
        self.cells.put(place, (value, count));
        former
    }

    // Removes the value at a place, returns it with its count, and leaves Removed there. The slot must be Live.
    #[inline(always)]
    pub fn take_at(&mut self, place: usize) -> (T, usize)
    {
        self.take_leaving(place, REMOVED)
    }

    // Removes the value at a place, and leaves the tag of a Removed or a Moved slot there. The slot must be Live.
    #[inline(always)]
    fn take_leaving(&mut self, place: usize, tag: u8) -> (T, usize)
    {
        self.tags[place] = tag;
        self.live -= 1;
        self.removed += usize::from(tag == REMOVED);
        self.cells.take(place)
    }

    // Drops all values, and makes each slot Empty. It keeps the memory of the slots.
    //
    // # Complexity
    //
    // If a slot is Live, it reads all tags, sixteen at once. It writes them all.
    pub fn clear(&mut self)
    {
        let all = MadeEmpty(self);
        drop_if_live(
            &all.0.tags.as_slice()[..all.0.slots],
            &mut all.0.cells,
            all.0.live,
        );
    }

    // Makes each slot Empty, after its value was dropped.
    fn make_empty(&mut self)
    {
        make_all_empty(self.tags.as_mut_slice(), self.slots);
        self.live = 0;
        self.removed = 0;
    }

    // Walks over references to the values of this table and of an older one, each with its count, in no particular order.
    pub fn walk<'a>(&'a self, older: &'a Slots<T>) -> Walk<'a, T>
    {
        Walk {
            newer_tags: &self.tags.as_slice()[..self.slots],
            newer: &self.cells,
            older_tags: &older.tags.as_slice()[..older.slots],
            older: &older.cells,
            cells: &self.cells,
            course: Course::first(),
            left: self.live + older.live,
        }
    }

    // Turns this table and an older one into a walk, which gives their values with their counts, in no particular order. Unread values are dropped
    // with the walk.
    pub fn into_walk(self, older: Slots<T>) -> IntoWalk<T>
    {
        let Slots {
            tags: mut newer_tags,
            cells: newer,
            slots: newer_slots,
            live: newer_live,
            removed: _,
        } = self;
        let Slots {
            tags: mut older_tags,
            cells: older,
            slots: older_slots,
            live: older_live,
            removed: _,
        } = older;
        newer_tags.truncate(newer_slots);
        older_tags.truncate(older_slots);
        IntoWalk {
            newer_tags,
            newer,
            older_tags,
            older,
            course: OwnedCourse::first(),
            left: newer_live + older_live,
        }
    }
}

impl<T: Hash> Slots<T> {
    // Places an absent value with the count `n` in the first slot on its path that is not Live. All other slots are unchanged. At least one slot
    // must not be Live.
    //
    // # Complexity
    //
    // It hashes the value once, and probes once.
    #[inline(always)]
    pub fn place<S: BuildHasher>(&mut self, state: &S, value: T, n: usize)
    {
        let hash = hash_of(state, &value);
        self.place_hashed(state, hash, value, n);
    }

    // Returns the first place on the path of a hash whose slot is not Live. At least one slot must not be Live.
    #[inline(always)]
    pub fn first_free(&self, hash: u64) -> usize
    {
        first_free(&self.tags.as_slice()[..self.slots], hash)
    }

    // Returns the first place from `place` on, along the path, whose slot is not Live. At least one slot must not be Live.
    #[inline(always)]
    pub fn free_from(&self, place: usize) -> usize
    {
        // The path that begins at `place`.
        self.first_free(place as u64)
    }

    // Places a value as [`Slots::place`] does, with its hash under the state. It hashes nothing.
    #[inline(always)]
    pub fn place_hashed<S: BuildHasher>(&mut self, state: &S, hash: u64, value: T, n: usize)
    {
        let place = self.first_free(hash);
        self.place_at(place, state, hash, value, n);
    }

    // Places an absent value with the count `n` at `place`. The caller has found `place`: the first on the path of `hash` whose slot isn't Live.
    // `hash` is the value's hash under the state. The call hashes and probes nothing.
    #[inline(always)]
    pub fn place_at<S: BuildHasher>(
        &mut self,
        place: usize,
        state: &S,
        hash: u64,
        value: T,
        n: usize,
    )
    {
        self.removed -= usize::from(self.tags[place] == REMOVED);
        self.tags[place] = fingerprint_of(hash);
        self.cells.put(place, (value, n));
        self.live += 1;
    }
}
