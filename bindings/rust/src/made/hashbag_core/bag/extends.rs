// Made by bindings/rust/make of crates/hashbag_core/src/bag/extends.rt. Change that, or what `make` reads.
use crate::rattle::prelude::*;
// Bags built from the items of an iterator, and bags to which these are added.
//
// In clauses `Once`, `AsItIs`, `OkOnce`, `CloneOnce` and `CloneAsOften` say which value is inserted for an item, and how often. `MayFailOne`,
// `MayFailPair` and `EndsTry` say with which error an item may fail.

use crate::made::hashbag_core::bag::{BagError, HashBag};
use crate::rattle::Global;
use std::hash::{BuildHasher, Hash};

// Why an extend by results failed: an item was an error, or an insertion failed.
#[derive(Clone, Debug, PartialEq, Eq)]
pub enum TryExtendError<E> {
    // The error of the item.
    Item(E),
    // The error of the insertion.
    Insertion(BagError),
}

impl<T: Eq + Hash, S: BuildHasher> HashBag<T, S> {
    // Returns an empty bag without slots, under the default state. It doesn't allocate.
    //
    // # Examples
    //
    // ```
    // let bag: HashBag<u64> = HashBag::default_in(alloc);
    // bag.len(); // 0
    // ```
    pub fn default_in(alloc: Global) -> HashBag<T, S>
    where
        S: Default,
    {
        HashBag::with_hasher(alloc, S::default())
    }

    // Builds a bag of the items, under the default state: an empty bag that is extended by [`HashBag::extend`].
    //
    // # Errors
    //
    // Those of [`HashBag::extend`]. Then there is no bag.
    //
    // # Examples
    //
    // ```
    // let values = ["apple", "pear", "apple"];
    // let bag: HashBag<&str> = HashBag::from_iter(alloc, values.iter().copied())?;
    // bag.contains(&"apple"); // 2
    // Ok(())
    // ```
    pub fn from_iter<I: Iterator<Item = T>>(
        alloc: Global,
        items: I,
    ) -> Result<HashBag<T, S>, BagError>
    where
        S: Default,
    {
        let mut bag = HashBag::default_in(alloc);
        bag.extend(items)?;
        Ok(bag)
    }

    // Builds a bag of pairs of a value and its number, under the default state: an empty bag that is extended by [`HashBag::extend_many`].
    //
    // # Errors
    //
    // Those of [`HashBag::extend_many`]. Then there is no bag.
    //
    // # Examples
    //
    // ```
    // let pairs = [("apple", 2), ("pear", 1), ("apple", 3)];
    // let bag: HashBag<&str> = HashBag::from_counts(alloc, pairs.iter().copied())?;
    // bag.contains(&"apple"); // 5
    // Ok(())
    // ```
    pub fn from_counts<I: Iterator<Item = (T, usize)>>(
        alloc: Global,
        pairs: I,
    ) -> Result<HashBag<T, S>, BagError>
    where
        S: Default,
    {
        let mut bag = HashBag::default_in(alloc);
        bag.extend_many(pairs)?;
        Ok(bag)
    }

    // Builds a bag of the values of results, under the default state: an empty bag that is extended by [`HashBag::try_extend`].
    //
    // # Errors
    //
    // Those of [`HashBag::try_extend`]. Then there is no bag.
    //
    // # Examples
    //
    // ```
    // let numbers: HashBag<u64> = HashBag::try_from_iter(alloc, "3 5 3".split(' ').map(|s| s.parse::<u64>()))?;
    // numbers.contains(&3); // 2
    // Ok(())
    // ```
    pub fn try_from_iter<E, I: Iterator<Item = Result<T, E>>>(
        alloc: Global,
        items: I,
    ) -> Result<HashBag<T, S>, TryExtendError<E>>
    where
        S: Default,
    {
        let mut bag = HashBag::default_in(alloc);
        bag.try_extend(items)?;
        Ok(bag)
    }

    // Inserts each item in turn, as [`HashBag::insert`] does, until the iterator ends or an item fails. The caller ensures that the items
    // end.
    //
    // # Errors
    //
    // - `TooMany` if the total would pass the limit with an item. That is tested first.
    // - `Memory` if an item is absent, there is no room, and an allocation fails.
    //
    // The items before the one that fails stay in the bag. The failed item is dropped, and so is the iterator with the items after it.
    //
    // # Complexity
    //
    // It hashes each item once. The insertions carry and allocate as [`HashBag::insert_many`] does.
    //
    // # Examples
    //
    // ```
    // let mut bag = HashBag::new(alloc);
    // bag.insert("apple")?;
    // bag.extend(["apple", "pear"].iter().copied())?;
    // bag.contains(&"apple"); // 2
    // Ok(())
    // ```
    pub fn extend<I: Iterator<Item = T>>(&mut self, items: I) -> Result<(), BagError>
    {
        // Only for the proof: it uses the clause `bag` of `len`.
        let _len = self.len();
        for item in items {
            self.insert_within(item, 1)?;
        }
        Ok(())
    }

    // Inserts the value of each result in turn, as [`HashBag::insert`] does, until the iterator ends, an item is an error, or an insertion
    // fails. The caller ensures that the items end.
    //
    // # Errors
    //
    // - `Item(error)` at the first item that is `Err(error)`.
    // - `Insertion(error)` if an insertion fails as in [`HashBag::extend`].
    //
    // The values of the items before the failed one stay in the bag. The iterator is dropped with the items after it.
    //
    // # Complexity
    //
    // Same as [`HashBag::extend`].
    //
    // # Examples
    //
    // ```
    // let mut numbers = HashBag::new(alloc);
    // numbers.try_extend("3 5 x 3".split(' ').map(|s| s.parse::<u64>())).is_err(); // true
    // numbers.contains(&3); // 1
    // numbers.len(); // 2
    // Ok(())
    // ```
    pub fn try_extend<E, I: Iterator<Item = Result<T, E>>>(
        &mut self,
        items: I,
    ) -> Result<(), TryExtendError<E>>
    {
        // Only for the proof: it uses the clause `bag` of `len`.
        let _len = self.len();
        for item in items {
            self.insert_result(item)?;
        }
        Ok(())
    }

    // Inserts the value of each pair in turn, as often as the pair's number says, as [`HashBag::insert_many`] does. A pair with 0 adds nothing.
    //
    // # Errors
    //
    // Those of [`HashBag::extend`], with a pair instead of an item.
    //
    // # Complexity
    //
    // It hashes each value once. The insertions carry and allocate as [`HashBag::insert_many`] does.
    //
    // # Examples
    //
    // ```
    // let mut bag = HashBag::new(alloc);
    // bag.insert("apple")?;
    // bag.extend_many([("apple", 2), ("pear", 3)].iter().copied())?;
    // bag.len(); // 6
    // Ok(())
    // ```
    pub fn extend_many<I: Iterator<Item = (T, usize)>>(
        &mut self,
        pairs: I,
    ) -> Result<(), BagError>
    {
        // Only for the proof: it uses the clause `bag` of `len`.
        let _len = self.len();
        for (value, n) in pairs {
            self.insert_within(value, n)?;
        }
        Ok(())
    }

    // Inserts a clone of each item in turn, until the iterator ends or an item fails. The caller ensures that the items end.
    //
    // # Errors
    //
    // Those of [`HashBag::extend`], and `Memory` if a clone fails. Clones of numbers never fail. The total is tested before an item is
    // cloned.
    //
    // # Complexity
    //
    // It clones and hashes each item once. The insertions carry and allocate as [`HashBag::insert_many`] does.
    //
    // # Examples
    //
    // ```
    // let values = ["apple", "pear", "apple"];
    // let mut bag = HashBag::new(alloc);
    // bag.extend_refs(values.iter())?;
    // bag.contains(&"apple"); // 2
    // values.len(); // 3
    // Ok(())
    // ```
    pub fn extend_refs<'a, I: Iterator<Item = &'a T>>(
        &mut self,
        items: I,
    ) -> Result<(), BagError>
    where
        T: TryClone + 'a,
    {
        // Only for the proof: it uses the clause `bag` of `len`.
        let _len = self.len();
        for item in items {
            self.insert_clone(item, 1)?;
        }
        Ok(())
    }

    // Inserts a clone of the value of each pair in turn, as often as the pair's number says. A pair with 0 adds nothing, and its value isn't cloned.
    //
    // # Errors
    //
    // Those of [`HashBag::extend_refs`], with a pair instead of an item.
    //
    // # Complexity
    //
    // It clones and hashes each value once, except in a pair with 0. The insertions carry and allocate as [`HashBag::insert_many`] does.
    //
    // # Examples
    //
    // ```
    // let mut first = HashBag::new(alloc);
    // first.insert_many("apple", 2)?;
    // let mut second = HashBag::new(alloc);
    // second.insert("apple")?;
    // second.extend_refs_many(first.set_iter())?;
    // second.contains(&"apple"); // 3
    // Ok(())
    // ```
    pub fn extend_refs_many<'a, I: Iterator<Item = (&'a T, usize)>>(
        &mut self,
        pairs: I,
    ) -> Result<(), BagError>
    where
        T: TryClone + 'a,
    {
        // Only for the proof: it uses the clause `bag` of `len`.
        let _len = self.len();
        for (value, n) in pairs {
            self.insert_clone(value, n)?;
        }
        Ok(())
    }

    // Inserts the value of a result once. If the result is an error, returns that error.
    fn insert_result<E>(&mut self, item: Result<T, E>) -> Result<(), TryExtendError<E>>
    {
        match item {
            Ok(value) => match self.insert_within(value, 1) {
                Ok(()) => Ok(()),
                Err(error) => Err(TryExtendError::Insertion(error)),
            },
            Err(error) => Err(TryExtendError::Item(error)),
        }
    }

    // Inserts `n` occurrences of a clone of the value, if the total stays within the limit. With `n` 0 it clones nothing.
    fn insert_clone(&mut self, value: &T, n: usize) -> Result<(), BagError>
    where
        T: TryClone,
    {
        if n > self.limit() - self.len() {
            return Err(BagError::TooMany);
        }
        if n == 0 {
            return Ok(());
        }
        let clone = value.try_clone()?;
        self.insert_within(clone, n)
    }
}
