// Made by bindings/rust/make of crates/hashbag_table/src/table.rt. Change that, or what `make` reads.
use crate::rattle::prelude::*;
// `Table`: a finite map from each distinct value to its stored instance and its count, in two tables of slots.
//
// Values are inserted into the newer table. If it has no room left, it becomes the older one, and a new one takes its place. Each
// insertion of an absent value then carries the next 16 slots of the older table, so no insertion moves all values at once.
//
// In clauses `IsMapOf` says which entries there are. `Adds`: occurrences were added, and a stored instance stays. `Stores`: the given instance itself
// is stored. Both also say which slots changed. `Rewrites`: only the slot of one value changed. `KeepsRoom 0`: no table was built, and room isn't
// lower. `FailsIfFull`: a call fails only for an absent value without room, and then changes nothing. `named_entry`: the entry that a key names.

#[path = "../../by_hand/hashbag_table/table/copy.rs"]
mod copy;
mod keys;
mod make;
mod resize;
mod spare;
mod spots;

use crate::made::hashbag_table::built::Built;
use crate::made::hashbag_table::capacity::{MOST_SLOTS, clear_slots, most_used, no_slots};
use crate::made::hashbag_table::key::Key;
use crate::made::hashbag_table::retain::retain_slots;
use crate::made::hashbag_table::walk::{DrainWalk, IntoWalk, Walk};
use crate::made::hashbag_slots::slots::find::MOST_CACHED;
use crate::made::hashbag_slots::slots::{Probed, Slot, Slots};
use crate::rattle::{AllocError, Global};
use std::hash::{BuildHasher, Hash};
use std::mem;

// The greatest number of distinct values for which room can be made on request, 3 * 2^57.
pub const MOST_VALUES: usize = MOST_SLOTS / 4 * 3;

const _: () = assert!(MOST_VALUES == 432_345_564_227_567_616);

// No number of slots less 1.
const NOT_QUICK: usize = usize::MAX;

// Returns `quick` for a newer and an older table with these numbers of slots.
fn quick_of(newer: usize, older: usize) -> usize
{
    let mask = newer.wrapping_sub(1);
    if older == 0 && mask < MOST_CACHED {
        return mask;
    }
    NOT_QUICK
}

// Returns `at_once` for two tables: how many absent values can be placed in the newer one, if no slot waits in the older one. Else 0.
fn at_once_of<T>(newer: &Slots<T>, older: &Slots<T>) -> usize
{
    if older.slots() > 0 {
        return 0;
    }
    most_used(newer.slots()).saturating_sub(newer.live() + newer.removed())
}

// Where a value is: the place of its slot in the newer table, or among the waiting slots of the older one.
#[derive(Clone, Copy)]
pub enum Spot {
    // A place among the slots of the newer table.
    Newer(usize),
    // A place among the waiting slots of the older table.
    Waiting(usize),
}

// Distinct values, each stored once with its count, a `usize` of at least 1. Values that `==` calls equal are one value.
//
// Contracts see a table as the list of its entries, in an order that means nothing, and the state that hashes its values. They also see
// the slots of the newer table, and the slots of the older one that wait to be carried.
pub struct Table<T, S> {
    newer: Slots<T>,
    // The former table. It has no slots if none waits.
    older: Slots<T>,
    // The number of slots of the older table that were carried: its first ones.
    carried_to: usize,
    // A value whose home in the older table is before this place isn't in that table: the slot before it is Empty, and all slots before `carried_to`
    // were carried.
    edge: usize,
    // The number of slots less 1, if there are at most `MOST_CACHED`, and none waits in the older table. Else `NOT_QUICK`.
    quick: usize,
    // At least as many absent values can be placed without a carry or a growth. It may be too low. If it isn't 0, no slot waits.
    at_once: usize,
    hasher: S,
    // The allocator of the table and of its copies.
    alloc: Global,
    // How many slots were ever built: the slots of all tables that were the newer one, together. For contracts only.
    built: Built,
    // A drain borrows this empty field: while the drain lives, the table is borrowed.
    lent: [usize; 0],
}

impl<T, S> Table<T, S> {
    // Returns the number of slots of the newer table. None of them is Moved.
    pub fn slots(&self) -> usize
    {
        self.newer.slots()
    }
}

impl<T: Eq + Hash, S: BuildHasher> Table<T, S> {
    // Only for proofs: its contract says that the entries are the Live slots of both tables, and that they are a map. It does nothing at run time.
    #[inline(always)]
    pub fn show_invariant(&self)
    {
        // By the use of a field the proof learns the table's invariant.
        let _carried_to = self.carried_to;
    }

}

impl<T, S> Table<T, S> {
    // Returns the number of slots that wait to be carried. If it is 0, the older table has no slots: its memory is freed.
    pub fn waiting(&self) -> usize
    {
        self.older.slots() - self.carried_to
    }

    // Returns how many absent values can be inserted before the table grows.
    pub fn room(&self) -> usize
    {
        most_used(self.newer.slots()) - self.newer.live() - self.newer.removed() - self.older.live()
    }

    // Returns the number of distinct values.
    pub fn set_len(&self) -> usize
    {
        // Only for the proof: it uses the clauses `value` and `bound` of `Slots::slots`.
        let _slots = self.newer.slots();
        self.newer.live() + self.older.live()
    }
}

impl<T: Eq + Hash, S: BuildHasher> Table<T, S> {
    // Returns the state that hashes the values.
    pub fn hasher(&self) -> &S
    {
        &self.hasher
    }

}

impl<T, S> Table<T, S> {
    // Returns how many distinct values the table can have before it grows.
    pub fn capacity(&self) -> usize
    {
        // Only for the proof: it uses the clauses `value` and `bound` of `Slots::slots`.
        let _slots = self.newer.slots();
        self.set_len() + self.room()
    }
}

impl<T: Eq + Hash, S: BuildHasher> Table<T, S> {
    // Returns whether it is known that an absent value can be placed without a carry or a growth: no slot waits, and there is room.
    #[inline(always)]
    fn can_place_at_once(&self) -> bool
    {
        self.at_once > 0
    }

    // Places an absent value at `place`, the first slot on its path that isn't Live. The caller has carried or grown before, if that was
    // needed. It doesn't allocate.
    #[inline(always)]
    fn place_at_once(&mut self, place: usize, hash: u64, value: T, count: usize)
    {
        self.at_once = self.at_once.saturating_sub(1);
        self.newer.place_at(place, &self.hasher, hash, value, count);
    }

    // Places a value as `place_at_once` does, and counts anew how many more can be placed at once.
    #[inline(never)]
    fn place_absent(&mut self, place: usize, hash: u64, value: T, count: usize)
    {
        self.place_at_once(place, hash, value, count);
        self.at_once = at_once_of(&self.newer, &self.older);
    }

    // Inserts an absent value with a count.
    //
    // # Errors
    //
    // `AllocError` if there is no room and an allocation fails. The table is then unchanged, and the value is dropped.
    //
    // # Complexity
    //
    // It hashes the value once, and each value that it carries. It allocates only without room.
    pub fn insert_new(&mut self, value: T, count: usize) -> Result<(), AllocError>
    {
        let hash = self.hash(&value);
        self.insert_hashed(hash, value, count)
    }

    // Inserts an absent value as `insert_new` does, with its hash under the state. It hashes only the values that it carries.
    fn insert_hashed(&mut self, hash: u64, value: T, count: usize) -> Result<(), AllocError>
    {
        self.show_invariant();
        self.carry_or_grow()?;
        let place = self.newer.first_free(hash);
        self.place_absent(place, hash, value, count);
        Ok(())
    }

    // Inserts an absent value as `insert_hashed` does. `first` is what a probe of the newer table showed: if that was a free slot, a carry goes on from
    // there, and nothing is probed from the home slot again.
    fn insert_probed(
        &mut self,
        hash: u64,
        value: T,
        n: usize,
        first: Probed,
    ) -> Result<(), AllocError>
    {
        if let Probed::Absent(place) = first {
            if self.room() > 0 {
                let free = self.carry_past(place);
                self.place_absent(free, hash, value, n);
                return Ok(());
            }
        }
        self.insert_hashed(hash, value, n)
    }

    // Inserts an absent value with a count. The table must have room, and no slot may wait. The call is inlined into the loop that clones: it hashes the
    // value once and probes only for a free slot.
    #[inline(always)]
    fn place_new(&mut self, value: T, count: usize)
    {
        let hash = self.hash(&value);
        let place = self.newer.first_free(hash);
        self.place_at_once(place, hash, value, count);
    }

    // Sets the count of a present value, if the count rises by at most `more`, and returns the count before in `Ok`. Else nothing changes, and the count
    // is returned in `Err`, which is no failure; 0 means that the value is absent. One look-up finds what is compared and what is set.
    //
    // # Complexity
    //
    // It hashes the value once and doesn't allocate.
    pub fn set_count(&mut self, value: &T, n: usize, more: usize) -> Result<usize, usize>
    {
        let hash = self.hash(value);
        if let Some(spot) = self.spot_of(hash, value) {
            let before = self.count_at(spot);
            if n.saturating_sub(before) > more {
                return Err(before);
            }
            self.set_spot(spot, n);
            return Ok(before);
        }
        Err(0)
    }

    // Stores a value itself with the count 1, if it is present, and returns the count before. The instance that was stored is dropped. `None`: the value
    // is absent, and nothing changes; the given value is dropped.
    //
    // # Complexity
    //
    // It hashes the value once and doesn't allocate.
    pub fn put_present(&mut self, value: T) -> Option<usize>
    {
        let hash = self.hash(&value);
        if let Some(spot) = self.spot_of(hash, &value) {
            let before = self.count_at(spot);
            let replaced = self.put_spot(spot, value);
            drop(replaced);
            return Some(before);
        }
        None
    }

    // Removes the value that a key names, and returns its stored instance and its count, or `None` if it is absent. Its slot, in whichever
    // table it is, becomes Removed.
    //
    // # Complexity
    //
    // It hashes the key once and doesn't allocate.
    pub fn remove<Q: Key<T>>(&mut self, key: Q) -> Option<(T, usize)>
    {
        let hash = self.hash(key);
        match self.spot_of(hash, key) {
            Some(spot) => {
                let entry = self.take_spot(spot);
                return Some(entry);
            }
            None => None,
        }
    }

    // Subtracts `n` from the count of the value that a key names, and returns the count before, 0 if the value is absent. If the count
    // is at most `n`, the value is removed, and its stored instance is dropped.
    //
    // # Complexity
    //
    // It hashes the key once and doesn't allocate.
    pub fn take_up_to<Q: Key<T>>(&mut self, key: Q, n: usize) -> usize
    {
        let hash = self.hash(key);
        if let Some(spot) = self.spot_of(hash, key) {
            let before = self.count_at(spot);
            if n < before {
                self.set_spot(spot, before - n);
                return before;
            }
            let (former, count) = self.take_spot(spot);
            drop(former);
            return count;
        }
        0
    }

    // Removes one occurrence of the value that a key names. If it was the last one, returns the stored instance in `Ok`. Else it returns
    // the count before in `Err`, which is no failure; 0 means that the value is absent.
    //
    // # Complexity
    //
    // It hashes the key once and doesn't allocate.
    pub fn take_one<Q: Key<T>>(&mut self, key: Q) -> Result<T, usize>
    {
        let hash = self.hash(key);
        if let Some(spot) = self.spot_of(hash, key) {
            let before = self.count_at(spot);
            if before > 1 {
                self.set_spot(spot, before - 1);
                return Err(before);
            }
            let (former, _) = self.take_spot(spot);
            return Ok(former);
        }
        Err(0)
    }

    // The slow path of `add`, if the newer table doesn't have the value. `first` is what a probe of that table showed. This function is out of line, so that
    // the fast path is short.
    #[inline(never)]
    fn add_slow(
        &mut self,
        hash: u64,
        value: T,
        n: usize,
        first: Probed,
    ) -> Result<usize, AllocError>
    {
        self.show_invariant();
        if let Some(spot) = self.spot_after_probe(hash, &value, first) {
            let before = self.raise_spot(spot, n);
            return Ok(before);
        }
        self.insert_probed(hash, value, n, first)?;
        Ok(0)
    }

    // Adds `n` to the count of a value and returns the count before, 0 if the value was absent. If the value is present, the stored
    // instance stays, and the given one is dropped.
    //
    // # Errors
    //
    // `AllocError` if the value is absent, there is no room and an allocation fails. The table is then unchanged, and the value is
    // dropped.
    //
    // # Complexity
    //
    // It hashes the value once, and each value that it carries.
    #[inline(always)]
    pub fn add(&mut self, value: T, n: usize) -> Result<usize, AllocError>
    {
        let hash = self.hash(&value);
        let first = self.probe_path(hash, &value);
        if let Probed::Found(place) = first {
            let before = self.raise_spot(Spot::Newer(place), n);
            return Ok(before);
        }
        if let Probed::Absent(place) = first {
            if self.can_place_at_once() {
                self.place_at_once(place, hash, value, n);
                return Ok(0);
            }
        }
        self.add_slow(hash, value, n, first)
    }

    // Stores a value itself with the count 1 and returns the count before, 0 if the value was absent. The instance that was stored, in
    // whichever table it is, is dropped.
    //
    // # Errors
    //
    // `AllocError` if the value is absent, there is no room and an allocation fails. The table is then unchanged, and the value is
    // dropped.
    //
    // # Complexity
    //
    // It hashes the value once, and each value that it carries.
    pub fn put_instance(&mut self, value: T) -> Result<usize, AllocError>
    {
        let hash = self.hash(&value);
        if let Some(spot) = self.spot_of(hash, &value) {
            let before = self.count_at(spot);
            let former = self.put_spot(spot, value);
            drop(former);
            return Ok(before);
        }
        self.insert_hashed(hash, value, 1)?;
        Ok(0)
    }

}

impl<T, S> Table<T, S> {
    // Drops all values. The newer table keeps its slots, and the older one is freed.
    //
    // # Complexity
    //
    // It doesn't allocate. If no slot of the newer table is Live or Removed, it writes nothing to that table.
    pub fn clear(&mut self)
    {
        clear_slots(&mut self.newer);
        let _freed = mem::replace(&mut self.older, no_slots(self.alloc));
        self.carried_to = 0;
        self.edge = 0;
        self.quick = quick_of(self.newer.slots(), 0);
        self.at_once = 0;
    }
}

impl<T: Eq + Hash, S: BuildHasher> Table<T, S> {
    // Calls `f` once for each value, with its count, in no particular order. Each count becomes the lesser of the count and what `f` returns. If
    // that is 0 the value is dropped, and its slot, in whichever table it is, becomes Removed. No value changes its slot. Returns the total of the
    // counts that are left. The caller ensures that the total of the counts before fits a `usize`.
    //
    // # Complexity
    //
    // It hashes nothing and doesn't allocate. It reads sixteen tags at once. In each of the two tables it stops after the last Live slot. If there
    // is no value it reads no tag, however many slots there are.
    pub fn retain<F: FnMut(&T, usize) -> usize>(&mut self, mut f: F) -> usize
    {
        self.at_once = 0;
        let newer = retain_slots(&mut self.newer, 0, &mut f);
        let waiting = retain_slots(&mut self.older, self.carried_to, &mut f);
        newer + waiting
    }

}

impl<T, S> Table<T, S> {
    // Walks over the entries, in no particular order: each value once, with its count.
    pub fn walk(&self) -> Walk<'_, T>
    {
        self.newer.walk(&self.older)
    }

    // Turns the table into a walk, in no particular order: each value once, with its count. Unread entries are dropped with the walk.
    pub fn into_walk(self) -> IntoWalk<T>
    {
        let Table {
            newer,
            older,
            carried_to: _,
            edge: _,
            quick: _,
            at_once: _,
            hasher: _,
            alloc: _,
            built: _,
            lent: _,
        } = self;
        newer.into_walk(older)
    }

    // Removes all entries, and walks over them, in no particular order: each value once, with its count.
    //
    // The table is empty at once, keeps its state, and has no room, however many entries are read. The unread ones are dropped with the
    // walk.
    pub fn drain(&mut self) -> DrainWalk<'_, T>
    {
        let newer = mem::replace(&mut self.newer, no_slots(self.alloc));
        let older = mem::replace(&mut self.older, no_slots(self.alloc));
        self.carried_to = 0;
        self.edge = 0;
        self.quick = NOT_QUICK;
        self.at_once = 0;
        DrainWalk {
            taken: newer.into_walk(older),
            table: &mut self.lent,
        }
    }
}
