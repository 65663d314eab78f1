//! `Constant`: a state that gives all values one hash.
use std::hash::{BuildHasher, Hasher};

/// Hashes every value to `hash`.
#[derive(Clone, Copy)]
pub struct Constant {
    /// The hash of every value.
    pub hash: u64,
}

/// Takes in nothing, and returns `hash`.
#[derive(Clone, Copy)]
pub struct Answer {
    /// What it returns.
    pub hash: u64,
}

impl Hasher for Answer {
    ghost write = { λ h _. h };

    ghost finish = { λ h. h.hash };

    fn finish(&self) -> u64 {
        self.hash
    }

    fn write(&mut self, _bytes: &[u8]) {}
}

impl BuildHasher for Constant {
    type Hasher = Answer;

    ghost build_hasher = { λ s. record { hash = s.hash } };

    fn build_hasher(&self) -> Answer {
        Answer { hash: self.hash }
    }
}
