//! `Tagged`: values whose equal instances can be distinguished.
ghost use Rattle.std.specs.Prelude.{◌==◌};
ghost use Rattle.std.proofs.Common.{rules};
ghost use Rattle.std.specs.Cmp.Rules.{comparing, hashing};
ghost use Rattle.std.specs.Hash as fed;

use std::hash::{Hash, Hasher};

/// A key with a tag. Two of them are equal if their keys are, so the tag distinguishes equal instances.
#[derive(Clone, Copy, Debug)]
pub struct Tagged {
    /// What is compared and hashed.
    pub key: u64,
    /// Which instance it is.
    pub tag: u64,
}

impl PartialEq for Tagged {
    ghost eq = { λ a b. a.key == b.key };

    ghost laws = { Prim.search (comparing, rules) };

    fn eq(&self, other: &Tagged) -> bool {
        self.key == other.key
    }
}

impl Eq for Tagged {
    ghost laws = { Prim.search (comparing, rules) };
}

impl Hash for Tagged {
    ghost hash_input = { λ a. fed.u64 a.key };

    ghost respects_eq = { Prim.search (hashing, rules) };

    fn hash<H: Hasher>(&self, state: &mut H) {
        self.key.hash(state);
    }
}
