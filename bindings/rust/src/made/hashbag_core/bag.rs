// Made by bindings/rust/make of crates/hashbag_core/src/bag.rt. Change that, or what `make` reads.
use crate::rattle::prelude::*;
// `HashBag`: how often each of several values occurs.
//
// In clauses `self.old` is the bag before a call, `self.new` the bag after it, and `self.now` a bag that is only read. `OnOk` and `OnErr` say what
// holds on success and on failure. `IfOk` and `IfErr` say what holds of the returned value and of the error. `×` is "and", `⊎` is "or",
// `(x : A) ×` is "there is an x", `(x : A) →` is "for every x". `ensures*` says what holds once a loan is over: the prover uses it at the end of
// the loan, and no proof can name it.

#[path = "../../by_hand/hashbag_core/bag/extra.rs"]
mod extra;
mod capacity;
mod equality;
mod extends;
mod keys;
mod make;
mod recount;
mod retain;
mod spare;
mod take;

pub use extends::TryExtendError;
use crate::made::hashbag_table::{Key, Table};
use crate::rattle::AllocError;
use crate::rattle::FoldHasher; use std::hash::{BuildHasher, BuildHasherDefault, Hash};

// Why a call failed.
#[derive(Clone, Copy, Debug, PartialEq, Eq)]
pub enum BagError {
    // An allocation failed, or a call would make room for more than 3 * 2^57 distinct values.
    Memory,
    // The total would pass the bag's limit.
    TooMany,
    // The limit would be below the total.
    BelowTotal,
}

impl BagError {
    // Returns the number by which programs report the error: 1 for `Memory`, 2 for `TooMany`, 9 for `BelowTotal`.
    //
    // # Examples
    //
    // ```
    // BagError::TooMany.number(); // 2
    // ```
    pub fn number(&self) -> u8
    {
        match self {
            BagError::Memory => 1,
            BagError::TooMany => 2,
            BagError::BelowTotal => 9,
        }
    }
}

impl From<AllocError> for BagError {

    fn from(_e: AllocError) -> BagError {
        BagError::Memory
    }
}

// Stores a value itself with the count 1, and returns the count before, 0 if the value was absent. If the total is at its limit, an absent value isn't
// inserted. One look-up decides both.
fn put_within<T: Eq + Hash, S: BuildHasher>(
    table: &mut Table<T, S>,
    value: T,
    at_limit: bool,
) -> Result<usize, BagError>
{
    if at_limit {
        match table.put_present(value) {
            Some(before) => return Ok(before),
            None => return Err(BagError::TooMany),
        }
    }
    match table.put_instance(value) {
        Ok(before) => return Ok(before),
        Err(_) => return Err(BagError::Memory),
    }
}

// The state that hashes the values of a bag if no other is given. Its keys are fixed, so a bag hashes alike in every run of a
// program.
//
// So whoever chooses the values can choose many with the same hash. Each insertion then takes time in proportion to their number.
// For values that strangers choose, use `HashBag::with_hasher(alloc, RandomState::new(&rt)?)`, whose keys are random.
pub type FixedState = BuildHasherDefault<FoldHasher>;

// A bag of values, also called a counted multiset: how often each distinct value occurs.
//
// Values that `==` calls equal are one value, which is stored once, as the instance that was inserted first. The count of a present
// value is a `usize` of at least 1. The total of all counts is at most the bag's limit, which is `usize::MAX` if no other is set.
//
// Contracts see a bag as the plain list of its occurrences, in an order that means nothing, and the state that hashes its values. They
// also see the slots of its newer table, the slots of its older table that aren't carried yet, and the limit.
//
// # Examples
//
// ```
// let mut words: HashBag<String> = HashBag::new(alloc);
// for word in "the cat and the hat".split_whitespace() {
//     words.insert_key(word)?;
// }
// words.len(); // 5
// words.set_len(); // 4
// words.contains("the"); // 2
// Ok(())
// ```
pub struct HashBag<T, S = FixedState> {
    pub(crate) table: Table<T, S>,
    pub(crate) len: usize,
    most: usize,
}

impl<T, S> HashBag<T, S> {
    // Returns the limit: the greatest total that the bag may have.
    //
    // # Examples
    //
    // ```
    // let bag: HashBag<u64> = HashBag::with_limit(alloc, FixedState::new(), 1_000);
    // bag.limit(); // 1000
    // ```
    #[inline(always)]
    pub fn limit(&self) -> usize
    {
        self.most
    }

    // Sets the limit. Nothing else changes, and it doesn't allocate.
    //
    // # Errors
    //
    // `BelowTotal` if `most` is below the total. The bag is then unchanged.
    //
    // # Examples
    //
    // ```
    // let mut bag = HashBag::new(alloc);
    // bag.insert_many("apple", 2)?;
    // bag.set_limit(1).err(); // Some(BelowTotal)
    // bag.set_limit(3)?;
    // bag.limit(); // 3
    // Ok(())
    // ```
    pub fn set_limit(&mut self, most: usize) -> Result<(), BagError>
    {
        if most < self.len {
            return Err(BagError::BelowTotal);
        }
        self.most = most;
        Ok(())
    }

    // Returns the number of occurrences: the sum of all counts.
    //
    // # Examples
    //
    // ```
    // let mut bag = HashBag::new(alloc);
    // bag.insert_many("apple", 2)?;
    // bag.insert("pear")?;
    // bag.len(); // 3
    // Ok(())
    // ```
    pub fn len(&self) -> usize
    {
        self.len
    }

    // Returns the number of distinct values.
    //
    // # Examples
    //
    // ```
    // let mut bag = HashBag::new(alloc);
    // bag.insert_many("apple", 2)?;
    // bag.insert("pear")?;
    // bag.set_len(); // 2
    // Ok(())
    // ```
    pub fn set_len(&self) -> usize
    {
        self.table.set_len()
    }

    // Returns whether there are no occurrences.
    //
    // # Examples
    //
    // ```
    // let mut bag = HashBag::new(alloc);
    // bag.insert("apple")?;
    // bag.is_empty(); // false
    // bag.remove(&"apple");
    // bag.is_empty(); // true
    // Ok(())
    // ```
    pub fn is_empty(&self) -> bool
    {
        self.len == 0
    }
}

impl<T: Eq + Hash, S: BuildHasher> HashBag<T, S> {
    // Returns the state that hashes the values.
    //
    // # Examples
    //
    // ```
    // let state = RandomState::new(&rt)?;
    // let first: HashBag<u64, RandomState> = HashBag::with_hasher(alloc, state);
    // let second: HashBag<u64, RandomState> = HashBag::with_hasher(alloc, *first.hasher());
    // first.hasher().hash_one(7) == second.hasher().hash_one(7); // true
    // Ok(())
    // ```
    pub fn hasher(&self) -> &S
    {
        self.table.hasher()
    }

    // Returns the count of a value, 0 if it is absent.
    //
    // The value is given as a reference, or as a key that names it: `bag.contains(&value)`, `words.contains("the")`.
    //
    // # Complexity
    //
    // It hashes the key once and doesn't allocate.
    //
    // # Examples
    //
    // ```
    // let mut bag = HashBag::new(alloc);
    // bag.insert_many("apple", 2)?;
    // bag.contains(&"apple"); // 2
    // bag.contains(&"pear"); // 0
    // Ok(())
    // ```
    #[inline(always)]
    pub fn contains<Q: Key<T>>(&self, key: Q) -> usize
    {
        match self.table.get(key) {
            Some((_, count)) => count,
            None => 0,
        }
    }

    // Returns the stored instance of a value with its count, or `None` if the value is absent.
    //
    // # Complexity
    //
    // It hashes the key once and doesn't allocate.
    //
    // # Examples
    //
    // ```
    // let mut bag = HashBag::new(alloc);
    // bag.insert_many("apple", 2)?;
    // bag.get(&"apple"); // Some(("apple", 2))
    // bag.get(&"pear"); // None
    // Ok(())
    // ```
    #[inline(always)]
    pub fn get<Q: Key<T>>(&self, key: Q) -> Option<(&T, usize)>
    {
        self.table.get(key)
    }

    // Inserts one occurrence of a value and returns the count before: [`HashBag::insert_many`] with 1.
    //
    // # Errors
    //
    // - `TooMany` exactly if the total would pass the limit. That is tested first.
    // - `Memory` if the value is absent, there is no room, and an allocation fails.
    //
    // Then the bag is unchanged, and the value is dropped.
    //
    // # Complexity
    //
    // Same as [`HashBag::insert_many`].
    //
    // # Examples
    //
    // ```
    // let mut bag = HashBag::new(alloc);
    // bag.insert("apple")?; // 0
    // bag.insert("apple")?; // 1
    // bag.contains(&"apple"); // 2
    // Ok(())
    // ```
    #[inline(always)]
    pub fn insert(&mut self, value: T) -> Result<usize, BagError>
    {
        self.insert_many(value, 1)
    }

    // Inserts `n` occurrences of a value and returns the count before.
    //
    // If the value is present, the stored instance stays, and the given one is dropped. An insertion of 0 changes nothing and can't fail.
    //
    // # Errors
    //
    // - `TooMany` exactly if the total would pass the limit. That is tested first.
    // - `Memory` if `n` isn't 0, the value is absent, there is no room, and an allocation fails.
    //
    // Then the bag is unchanged, and the value is dropped.
    //
    // # Complexity
    //
    // It hashes the value once. It allocates only if the value is absent and there is no room. If the value is absent, up to 16 slots of
    // an older table are carried, and each value in them is hashed once.
    //
    // # Examples
    //
    // ```
    // let mut bag = HashBag::new(alloc);
    // bag.insert_many("apple", 3)?; // 0
    // bag.insert_many("apple", 2)?; // 3
    // bag.insert_many("apple", usize::MAX).err(); // Some(TooMany)
    // bag.len(); // 5
    // Ok(())
    // ```
    #[inline(always)]
    pub fn insert_many(&mut self, value: T, n: usize) -> Result<usize, BagError>
    {
        if n > self.most - self.len {
            return Err(BagError::TooMany);
        }
        if n == 0 {
            return Ok(self.contains(&value));
        }
        let before = self.table.add(value, n)?;
        self.len += n;
        // Only for the proof: it uses the clause `entries` of `Table::show_invariant`.
        self.table.show_invariant();
        Ok(before)
    }

    // Replaces all occurrences of a value by the given instance, with the count 1, and returns the count before. The instance that was
    // stored is dropped.
    //
    // # Errors
    //
    // - `TooMany` exactly if the total would pass the limit. That is tested first, and can't happen if the value is present.
    // - `Memory` if the value is absent, there is no room, and an allocation fails.
    //
    // Then the bag is unchanged, and the value is dropped.
    //
    // # Complexity
    //
    // It hashes the value once. It allocates only if the value is absent and there is no room. If the value is absent, up to 16 slots of an older table are carried, and each value in them is hashed once.
    //
    // # Examples
    //
    // ```
    // let mut bag = HashBag::new(alloc);
    // bag.insert_many("apple", 3)?;
    // bag.replace("apple")?; // 3
    // bag.contains(&"apple"); // 1
    // Ok(())
    // ```
    pub fn replace(&mut self, value: T) -> Result<usize, BagError>
    {
        let at_limit = self.len == self.most;
        match put_within(&mut self.table, value, at_limit) {
            Ok(before) => {
                self.len = self.len - before + 1;
                return Ok(before);
            }
            Err(error) => return Err(error),
        }
    }

    // Inserts `n` occurrences of a value, if the total stays within the limit.
    pub(crate) fn insert_within(&mut self, value: T, n: usize) -> Result<(), BagError>
    {
        self.insert_many(value, n)?;
        Ok(())
    }

    // Inserts one or more occurrences of an absent value.
    pub(crate) fn insert_new(&mut self, value: T, n: usize) -> Result<(), BagError>
    {
        self.table.insert_new(value, n)?;
        self.len += n;
        // Only for the proof: it uses the clause `entries` of `Table::show_invariant`.
        self.table.show_invariant();
        Ok(())
    }
}
