//! `Counted`: values that count their drops, and whose equal instances can be distinguished.
ghost use Rattle.std.specs.Prelude.{◌==◌};
ghost use Rattle.std.proofs.Common.{rules};
ghost use Rattle.std.specs.Cmp.Rules.{comparing, hashing};
ghost use Rattle.std.specs.Hash as fed;

use std::cell::Cell;
use std::hash::{Hash, Hasher};

/// A key with a tag, which raises `drops` by 1 when it is dropped. Two of them are equal if their keys are.
pub struct Counted<'a> {
    /// What is compared and hashed.
    pub key: u64,
    /// Which instance it is.
    pub tag: u64,
    /// How many were dropped.
    pub drops: &'a Cell<usize>,
}

impl<'a> PartialEq for Counted<'a> {
    ghost eq = { λ a b. a.key == b.key };

    ghost laws = { Prim.search (comparing, rules) };

    fn eq(&self, other: &Counted<'a>) -> bool {
        self.key == other.key
    }
}

impl<'a> Eq for Counted<'a> {
    ghost laws = { Prim.search (comparing, rules) };
}

impl<'a> Hash for Counted<'a> {
    ghost hash_input = { λ a. fed.u64 a.key };

    ghost respects_eq = { Prim.search (hashing, rules) };

    fn hash<H: Hasher>(&self, state: &mut H) {
        self.key.hash(state);
    }
}

impl<'a> Drop for Counted<'a> {
    fn drop(self) {
        let Counted {
            key: _,
            tag: _,
            drops,
        } = self;
        drops.set(drops.get().wrapping_add(1));
    }
}
