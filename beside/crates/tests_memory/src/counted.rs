//! Values that count how many of them were made, and how many were dropped.
ghost use Rattle.std.specs.Prelude.{◌≡◌, ◌==◌};
ghost use Rattle.std.proofs.Common.{rules};
ghost use Rattle.std.specs.Cmp.Rules.{comparing, hashing};
ghost use Rattle.std.specs.Hash as fed;

use crate::checks::{Wrong, check};
use std::alloc::AllocError;
use std::cell::Cell;
use std::hash::{Hash, Hasher};

/// Makes values, and knows how many were made, clones among them, and how many were dropped.
#[derive(Drop)]
pub struct Values {
    made: Cell<usize>,
    dropped: Cell<usize>,
}

impl Values {
    /// None yet.
    pub fn new() -> Values {
        Values {
            made: Cell::new(0),
            dropped: Cell::new(0),
        }
    }

    /// Returns a value with this key.
    pub fn value(&self, key: u64) -> Counted<'_> {
        self.made.set(self.made.get().wrapping_add(1));
        Counted { key, values: self }
    }

    /// Checks that each value that was made was dropped once.
    pub fn are_gone(&self) -> Result<(), Wrong> {
        check(
            self.made.get() == self.dropped.get(),
            "full bags: a value that wasn't dropped once",
        )
    }
}

/// A key. Two of them are equal if their keys are.
pub struct Counted<'a> {
    key: u64,
    values: &'a Values,
}

impl<'a> PartialEq for Counted<'a> {
    ghost eq = { λ a b. a.key == b.key };

    ghost laws = { Prim.search (comparing, rules) };

    fn eq(&self, other: &Counted<'a>) -> bool {
        self.key == other.key
    }
}

impl<'a> Eq for Counted<'a> {
    ghost laws = { Prim.search (comparing, rules) };
}

impl<'a> Hash for Counted<'a> {
    ghost hash_input = { λ a. fed.u64 a.key };

    ghost respects_eq = { Prim.search (hashing, rules) };

    fn hash<H: Hasher>(&self, state: &mut H) {
        self.key.hash(state);
    }
}

impl<'a> Clone for Counted<'a> {
    ghost is_clone = { λ a b. b ≡ a };

    fn clone(&self) -> Result<Counted<'a>, AllocError> {
        let values = self.values;
        values.made.set(values.made.get().wrapping_add(1));
        Ok(Counted {
            key: self.key,
            values,
        })
    }
}

impl<'a> Drop for Counted<'a> {
    fn drop(self) {
        let Counted { key: _, values } = self;
        values.dropped.set(values.dropped.get().wrapping_add(1));
    }
}
