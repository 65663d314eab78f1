//! `Pair`: two tables of slots, of which the older one is carried to the newer one a few slots at a time.
ghost use Rattle.std.specs.Prelude.{◌≡◌, ◌+◌, ◌≤◌, ◌^◌, length};
ghost use Rattle.hashbag_slots.specs.Hashing.{hash_under};
ghost use Rattle.hashbag_slots.specs.Slots.{AreApart, live_count};
ghost use Rattle.hashbag_slots.specs.Columns.{IsReached};

use crate::tests::held::{Held, slot_count};
use hashbag_slots::slots::Slots;
use std::alloc::{AllocError, Global};
use std::hash::{BuildHasher, Hash};

/// An older table whose values go to a newer one.
#[derive(Drop)]
pub struct Pair<T: Eq + Hash, S: BuildHasher> {
    /// The table to which values go.
    pub newer: Slots<T>,
    /// The table from which they go.
    pub older: Slots<T>,
    /// The state that hashes the values of both.
    pub state: S,
    looked: usize,
    ghost newer_reached: { IsReached (hash_under T.hash_input S.BuildHasher S.Hasher.Hasher state) newer },
    ghost older_reached: { IsReached (hash_under T.hash_input S.BuildHasher S.Hasher.Hasher state) older },
    ghost apart: { AreApart T.eq older.slots newer.slots },
    ghost room: { live_count newer.slots + live_count older.slots ≤ length newer.slots },
}

impl<T: Eq + Hash + Drop, S: BuildHasher + Drop> Pair<T, S> {
    /// Returns a table with a newer one of 2 to the power `k` Empty slots. If an allocation fails, or the newer one is too
    /// small, there is no pair.
    pub fn new(alloc: Global, older: Held<T, S>, k: usize) -> Result<Pair<T, S>, AllocError>
        requires { (4 ≤ k) × (k ≤ 59) }
    {
        let Held {
            slots: older,
            state,
        } = older;
        let newer = Slots::with_slots(alloc, slot_count(k))?;
        if older.live() > newer.slots() {
            return Err(AllocError);
        }
        Ok(Pair {
            newer,
            older,
            state,
            looked: 0,
        })
    }

    /// Carries the next slots, at most this many. It returns how many were carried in all.
    pub fn carry(&mut self, many: usize) -> usize {
        let count = self.older.slots();
        if self.looked > count {
            return self.looked;
        }
        let many = many.min(count - self.looked);
        self.newer
            .carry_from(&self.state, &mut self.older, self.looked, many);
        self.looked += many;
        self.looked
    }

    /// The places of a value in the newer and in the older table.
    pub fn find(&self, value: &T) -> (Option<usize>, Option<usize>) {
        let newer = self.newer.find(&self.state, value);
        let older = self.older.find(&self.state, value);
        (newer, older)
    }
}
