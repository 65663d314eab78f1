//! `Held`: a table of slots together with the state that hashes its values.
ghost use Rattle.std.specs.Prelude.{◌≡◌, ◌≤◌, ◌^◌};
ghost use Rattle.hashbag_slots.specs.Hashing.{hash_under};
ghost use Rattle.hashbag_slots.specs.Slots.{IsSlotCount};
ghost use Rattle.hashbag_slots.specs.Columns.{IsReached};

use hashbag_slots::slots::{Probed, Slots, hash_of};
use hashbag_slots::walk::IntoWalk;
use std::alloc::{AllocError, Global};
use std::hash::{BuildHasher, Hash};

// 2 to the power `k`.
fn power(k: usize) -> usize
    requires { k ≤ 59 }
    ensures { result ≡ 2 ^ k }
{
    1 << k
}

/// 2 to the power `k`, as a number of slots.
pub fn slot_count(k: usize) -> usize
    requires { (4 ≤ k) × (k ≤ 59) }
    ensures { IsSlotCount result }
{
    power(k)
}

/// A table and the state under which its values are found.
#[derive(Drop)]
pub struct Held<T: Eq + Hash, S: BuildHasher> {
    /// The table.
    pub slots: Slots<T>,
    /// The state that hashes its values.
    pub state: S,
    pub ghost reached: { IsReached (hash_under T.hash_input S.BuildHasher S.Hasher.Hasher state) slots },
}

impl<T: Eq + Hash + Drop, S: BuildHasher + Drop> Held<T, S> {
    /// A table of 2 to the power `k` Empty slots.
    pub fn new(alloc: Global, state: S, k: usize) -> Result<Held<T, S>, AllocError>
        requires { (4 ≤ k) × (k ≤ 59) }
    {
        let slots = Slots::with_slots(alloc, slot_count(k))?;
        Ok(Held { slots, state })
    }

    /// A table of no slots.
    pub fn none(alloc: Global, state: S) -> Result<Held<T, S>, AllocError> {
        let slots = Slots::with_slots(alloc, 0)?;
        Ok(Held { slots, state })
    }

    /// Whether the value could be placed, with a count: it was absent, the count is not 0, and a slot was not Live.
    pub fn place(&mut self, value: T, n: usize) -> bool {
        if n == 0 || self.slots.live() >= self.slots.slots() {
            return false;
        }
        if self.slots.find(&self.state, &value).is_some() {
            return false;
        }
        self.slots.place(&self.state, value, n);
        true
    }

    /// The place of a value.
    pub fn find(&self, value: &T) -> Option<usize> {
        self.slots.find(&self.state, value)
    }

    /// What a probe along a value's path shows: its place, or the one into which it would go.
    pub fn seek(&self, value: &T) -> Probed {
        let hash = hash_of(&self.state, value);
        self.slots.probe_path(&self.state, hash, value)
    }

    /// Places a value as `place` does, where the probe found a free slot.
    pub fn place_sought(&mut self, value: T, n: usize) -> Option<bool> {
        if n == 0 {
            return None;
        }
        let hash = hash_of(&self.state, &value);
        match self.slots.probe_path(&self.state, hash, &value) {
            Probed::Found(_) => Some(false),
            Probed::Absent(place) => {
                self.slots.place_at(place, &self.state, hash, value, n);
                Some(true)
            }
            Probed::Full => None,
        }
    }

    /// Returns the count of a value, 0 if it is absent.
    pub fn count(&self, value: &T) -> usize {
        match self.slots.find(&self.state, value) {
            Some(place) => {
                let (_, n) = self.slots.live_at(place);
                n
            }
            None => 0,
        }
    }

    /// Adds to the count of a present value, if the sum fits. It returns the count before.
    pub fn add(&mut self, value: &T, n: usize) -> usize {
        let Some(place) = self.slots.find(&self.state, value) else {
            return 0;
        };
        let before = match self.slots.at(place) {
            Some((_, count)) => count,
            None => 0,
        };
        if n <= usize::MAX - before {
            self.slots.add_at(place, n);
        }
        before
    }

    /// Sets the count of a present value, which is not 0. It returns the count after.
    pub fn set(&mut self, value: &T, n: usize) -> usize {
        if n > 0 {
            if let Some(place) = self.slots.find(&self.state, value) {
                self.slots.set_at(place, n);
            }
        }
        self.count(value)
    }

    /// Stores another instance of a value, and returns the former one. A value that is absent is returned itself.
    pub fn put(&mut self, value: T) -> T {
        match self.slots.find(&self.state, &value) {
            Some(place) => self.slots.put_at(place, value),
            None => value,
        }
    }

    /// Takes a value out, with its count.
    pub fn take(&mut self, value: &T) -> Option<(T, usize)> {
        match self.slots.find(&self.state, value) {
            Some(place) => Some(self.slots.take_at(place)),
            None => None,
        }
    }

    /// Drops all values.
    pub fn clear(&mut self) {
        self.slots.clear();
    }

    /// The table and an older one as a walk.
    pub fn into_walk(self, older: Held<T, S>) -> IntoWalk<T> {
        let Held { slots, state: _ } = self;
        let Held {
            slots: older_slots,
            state: _,
        } = older;
        slots.into_walk(older_slots)
    }
}
