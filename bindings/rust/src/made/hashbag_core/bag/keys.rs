// Made by bindings/rust/make of crates/hashbag_core/src/bag/keys.rt. Change that, or what `make` reads.
use crate::rattle::prelude::*;
// Insertions by keys, for callers that have no value but a key that names it, as a text names a `String`.
//
// In Rust's `hashbag` crate, look-ups and removals take the borrowed form of a value. Here they take a `Key`. The insertions of this file take a
// [`ToValue`], from which the value is built only if it is absent.

use crate::made::hashbag_core::bag::{BagError, HashBag};
use crate::made::hashbag_table::ToValue;
use crate::rattle::Global;
use std::hash::{BuildHasher, Hash};

impl<T: Eq + Hash, S: BuildHasher> HashBag<T, S> {
    // Inserts one occurrence of the value that a key names and returns the count before: [`HashBag::insert_many_key`] with 1.
    //
    // `words.insert_key("the")?` makes a `String` only if the word is absent.
    //
    // # Errors
    //
    // - `TooMany` exactly if the total would pass the limit. That is tested first.
    // - `Memory` if the value is absent, and an allocation for the value or for slots fails.
    //
    // Then the bag is unchanged.
    //
    // # Complexity
    //
    // Same as [`HashBag::insert_many_key`].
    //
    // # Examples
    //
    // ```
    // let mut words: HashBag<String> = HashBag::new(alloc);
    // words.insert_key("the")?; // 0
    // words.insert_key("the")?; // 1
    // Ok(())
    // ```
    #[inline(always)]
    pub fn insert_key<Q: ToValue<T>>(&mut self, key: Q) -> Result<usize, BagError>
    {
        self.insert_many_key(key, 1)
    }

    // Inserts `n` occurrences of the value that a key names and returns the count before: `words.insert_many_key("the", 3)?`.
    //
    // If the value is present, the stored instance stays. If it is absent, it is built from the key. An insertion of 0 changes nothing and
    // can't fail.
    //
    // # Errors
    //
    // - `TooMany` exactly if the total would pass the limit. That is tested first.
    // - `Memory` if `n` isn't 0, the value is absent, and an allocation for the value or for slots fails.
    //
    // Then the bag is unchanged.
    //
    // # Complexity
    //
    // It hashes the key once. A present value allocates nothing. An absent one is allocated, and is inserted as by
    // [`HashBag::insert_many`].
    //
    // # Examples
    //
    // ```
    // let mut words: HashBag<String> = HashBag::new(alloc);
    // words.insert_many_key("the", 3)?; // 0
    // words.insert_many_key("the", 2)?; // 3
    // Ok(())
    // ```
    #[inline(always)]
    pub fn insert_many_key<Q: ToValue<T>>(&mut self, key: Q, n: usize) -> Result<usize, BagError>
    {
        if n > self.most - self.len {
            return Err(BagError::TooMany);
        }
        if n == 0 {
            return Ok(self.contains(key));
        }
        let before = self.table.add_key(key, n)?;
        self.len += n;
        // Only for the proof: it uses the clause `entries` of `Table::show_invariant`.
        self.table.show_invariant();
        Ok(before)
    }

    // Inserts one occurrence of the value of each key in turn, as [`HashBag::insert_key`] does, until the iterator ends or an insertion
    // fails: `words.extend_keys(text.split_whitespace())?`. The caller ensures that the keys end.
    //
    // # Errors
    //
    // Those of [`HashBag::insert_key`]. The values of the keys before the one that fails stay in the bag. The iterator is dropped.
    //
    // # Complexity
    //
    // It hashes each key once, and allocates only for values that were absent.
    //
    // # Examples
    //
    // ```
    // let mut words: HashBag<String> = HashBag::new(alloc);
    // words.extend_keys("the cat and the hat".split_whitespace())?;
    // words.contains("the"); // 2
    // Ok(())
    // ```
    pub fn extend_keys<Q: ToValue<T>, I: Iterator<Item = Q>>(
        &mut self,
        keys: I,
    ) -> Result<(), BagError>
    {
        // Only for the proof: it uses the clause `bag` of `len`.
        let _len = self.len();
        for key in keys {
            self.insert_key(key)?;
        }
        Ok(())
    }

    // Builds a bag of the values of the keys, under the default state: an empty bag that is extended by [`HashBag::extend_keys`].
    //
    // # Errors
    //
    // Those of [`HashBag::extend_keys`]. Then there is no bag.
    //
    // # Examples
    //
    // ```
    // let words: HashBag<String> = HashBag::from_keys(alloc, "the cat and the hat".split_whitespace())?;
    // words.contains("the"); // 2
    // Ok(())
    // ```
    pub fn from_keys<Q: ToValue<T>, I: Iterator<Item = Q>>(
        alloc: Global,
        keys: I,
    ) -> Result<HashBag<T, S>, BagError>
    where
        S: Default,
    {
        let mut bag = HashBag::default_in(alloc);
        bag.extend_keys(keys)?;
        Ok(bag)
    }
}
