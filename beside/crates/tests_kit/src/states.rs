//! Hash states for tests, from one under which all values collide to one under which no two numbers do.
ghost use Rattle.std.specs.Prelude.{◌≡◌, ◌%◌};
ghost use Rattle.tests_kit.specs.LastNumber.{number_after};

use std::alloc::AllocError;
use std::cell::Cell;
use std::hash::{BuildHasher, Hash, Hasher};

/// Takes in nothing, and returns 0.
#[derive(Clone, Copy, Debug, Default)]
pub struct Nothing;

impl Hasher for Nothing {
    ghost write = { λ h _. h };

    ghost finish = { λ _. 0 };

    fn finish(&self) -> u64 {
        0
    }

    fn write(&mut self, _bytes: &[u8]) {}
}

/// Returns the last eight bytes that were written, read as a number with the lowest byte first. Before the first byte it returns 0.
#[derive(Clone, Copy, Debug, Default)]
pub struct LastNumber {
    number: u64,
}

impl Hasher for LastNumber {
    ghost write = { λ h bytes. record { number = number_after h.number bytes } };

    ghost finish = { λ h. h.number };

    fn finish(&self) -> u64 {
        self.number
    }

    fn write(&mut self, bytes: &[u8]) {
        for byte in bytes {
            self.number = (self.number >> 8) + (u64::from(*byte) << 56);
        }
    }
}

/// Returns the last bit of what [`LastNumber`] returns.
#[derive(Clone, Copy, Debug, Default)]
pub struct LastBit {
    last: LastNumber,
}

impl Hasher for LastBit {
    ghost write = { λ h bytes. record { last = record { number = number_after h.last.number bytes } } };

    ghost finish = { λ h. h.last.number % 2 };

    fn finish(&self) -> u64 {
        self.last.finish() % 2
    }

    fn write(&mut self, bytes: &[u8]) {
        self.last.write(bytes);
    }
}

/// Hashes every value to 0.
#[derive(Clone, Copy, Debug, Default)]
pub struct OneState;

impl BuildHasher for OneState {
    type Hasher = Nothing;

    ghost build_hasher = { λ _. record {} };

    fn build_hasher(&self) -> Nothing {
        Nothing
    }
}

/// Hashes each `u64` to itself.
#[derive(Clone, Copy, Debug, Default)]
pub struct IdentityState;

impl BuildHasher for IdentityState {
    type Hasher = LastNumber;

    ghost build_hasher = { λ _. record { number = 0 } };

    fn build_hasher(&self) -> LastNumber {
        LastNumber { number: 0 }
    }
}

/// Hashes each `u64` to its last bit, so to 0 or 1.
#[derive(Clone, Copy, Debug, Default)]
pub struct ParityState;

impl BuildHasher for ParityState {
    type Hasher = LastBit;

    ghost build_hasher = { λ _. record { last = record { number = 0 } } };

    fn build_hasher(&self) -> LastBit {
        LastBit {
            last: LastNumber { number: 0 },
        }
    }
}

/// Hashes every value to 0, and counts how often it hashes.
#[derive(Drop)]
pub struct CountingState {
    hashed: Cell<u64>,
}

impl CountingState {
    /// Returns how many values were hashed since the state was made. A clone goes on from the number of its original.
    pub fn hashed(&self) -> u64 {
        self.hashed.get()
    }
}

impl Default for CountingState {
    fn default() -> CountingState {
        CountingState {
            hashed: Cell::new(0),
        }
    }
}

impl Clone for CountingState {
    fn clone(&self) -> Result<CountingState, AllocError> {
        Ok(CountingState {
            hashed: Cell::new(self.hashed.get()),
        })
    }
}

impl BuildHasher for CountingState {
    type Hasher = Nothing;

    ghost build_hasher = { λ _. record {} };

    fn build_hasher(&self) -> Nothing {
        self.hashed.set(self.hashed.get().saturating_add(1));
        Nothing
    }
}

/// Returns the hash of a value under [`OneState`], which is 0.
pub fn one_hash<T: Hash + Drop>(x: T) -> u64
    ensures { result ≡ 0 }
{
    OneState.hash_one(x)
}

/// Returns the hash of a number under [`IdentityState`], which is the number.
pub fn identity_hash(x: u64) -> u64
    ensures { result ≡ x }
{
    IdentityState.hash_one(x)
}

/// Returns the hash of a number under [`ParityState`], which is its last bit.
pub fn parity_hash(x: u64) -> u64
    ensures { result ≡ x % 2 }
{
    ParityState.hash_one(x)
}
