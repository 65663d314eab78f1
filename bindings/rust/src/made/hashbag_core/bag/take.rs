// Made by bindings/rust/make of crates/hashbag_core/src/bag/take.rt. Change that, or what `make` reads.
use crate::rattle::prelude::*;
// How occurrences are removed from a bag: one, some, or all of a value.

use crate::made::hashbag_core::bag::HashBag;
use crate::made::hashbag_table::Key;
use std::hash::{BuildHasher, Hash};

impl<T: Eq + Hash, S: BuildHasher> HashBag<T, S> {

    // Removes one occurrence of a value, if there is one, and returns the count before. With the last occurrence the stored instance is
    // dropped.
    //
    // The value is given as a reference, or as a key that names it: `bag.remove(&value)`, `words.remove("the")`.
    //
    // # Complexity
    //
    // It hashes the key once and doesn't allocate.
    //
    // # Examples
    //
    // ```
    // let mut bag = HashBag::new(alloc);
    // bag.insert_many("apple", 2)?;
    // bag.remove(&"apple"); // 2
    // bag.remove(&"apple"); // 1
    // bag.remove(&"apple"); // 0
    // Ok(())
    // ```
    pub fn remove<Q: Key<T>>(&mut self, key: Q) -> usize
    {
        self.take_up_to(key, 1)
    }

    // Removes `n` occurrences of a value, or all if there are fewer, and returns the count after. With the last occurrence the
    // stored instance is dropped.
    //
    // # Complexity
    //
    // It hashes the key once and doesn't allocate.
    //
    // # Examples
    //
    // ```
    // let mut bag = HashBag::new(alloc);
    // bag.insert_many("apple", 5)?;
    // bag.remove_up_to(&"apple", 3); // 2
    // bag.remove_up_to(&"apple", 3); // 0
    // Ok(())
    // ```
    pub fn remove_up_to<Q: Key<T>>(&mut self, key: Q, n: usize) -> usize
    {
        self.take_up_to(key, n).saturating_sub(n)
    }

    // Removes `n` occurrences of a value, or all if there are fewer, and returns the count before.
    fn take_up_to<Q: Key<T>>(&mut self, key: Q, n: usize) -> usize
    {
        let before = self.table.take_up_to(key, n);
        self.len -= before.min(n);
        before
    }

    // Removes one occurrence of a value. If it was the last one, returns the stored instance in `Ok`. Else it returns in `Err` the stored
    // instance, which stays in the bag, with the count before, or `Err(None)` if the value is absent.
    //
    // A caller's proof can use what is returned, but not what the bag is after the call; it can use both with [`HashBag::take_one`]. `take_one`
    // returns no reference, so it can be called in a loop.
    //
    // # Complexity
    //
    // It hashes the key once, and twice if one of several is removed. It doesn't allocate.
    //
    // # Examples
    //
    // ```
    // let mut bag = HashBag::new(alloc);
    // bag.insert_many("apple", 2)?;
    // bag.try_take(&"apple").err(); // Some(Some(("apple", 2)))
    // bag.try_take(&"apple").ok(); // Some("apple")
    // bag.try_take(&"apple").err(); // Some(None)
    // Ok(())
    // ```
    pub fn try_take<Q: Key<T>>(&mut self, key: Q) -> Result<T, Option<(&T, usize)>>
    {
        HashBag::taken_or_lent(self.take_one(key), self, key)
    }

    // Returns what was taken, or else the instance that stays, with the count before.
    fn taken_or_lent<'a, Q: Key<T>>(
        taken: Result<T, usize>,
        bag: &'a HashBag<T, S>,
        key: Q,
    ) -> Result<T, Option<(&'a T, usize)>>
    {
        match taken {
            Ok(instance) => Ok(instance),
            Err(0) => Err(None),
            Err(before) => match bag.get(key) {
                Some((instance, _)) => Err(Some((instance, before))),
                None => Err(None),
            },
        }
    }

    // Removes one occurrence of a value. If it was the last one, returns the stored instance in `Ok`. Else it returns in `Err` the count
    // before, which is 0 if the value is absent: then nothing is removed.
    //
    // It is [`HashBag::try_take`] without the loan of the instance that stays, so its contract says what the bag is after the call.
    //
    // # Complexity
    //
    // It hashes the key once and doesn't allocate.
    //
    // # Examples
    //
    // ```
    // let mut bag = HashBag::new(alloc);
    // bag.insert_many("apple", 2)?;
    // bag.take_one(&"apple").err(); // Some(2)
    // bag.take_one(&"apple").ok(); // Some("apple")
    // bag.take_one(&"apple").err(); // Some(0)
    // Ok(())
    // ```
    pub fn take_one<Q: Key<T>>(&mut self, key: Q) -> Result<T, usize>
    {
        match self.table.take_one(key) {
            Ok(instance) => {
                self.len -= 1;
                Ok(instance)
            }
            Err(before) => {
                self.len -= before.min(1);
                Err(before)
            }
        }
    }

    // Removes a value, and returns its stored instance and its whole count, or `None` if it is absent.
    //
    // # Complexity
    //
    // It hashes the key once and doesn't allocate.
    //
    // # Examples
    //
    // ```
    // let mut bag = HashBag::new(alloc);
    // bag.insert_many("apple", 2)?;
    // bag.take_all(&"apple"); // Some(("apple", 2))
    // bag.take_all(&"apple"); // None
    // Ok(())
    // ```
    pub fn take_all<Q: Key<T>>(&mut self, key: Q) -> Option<(T, usize)>
    {
        let (instance, count) = self.table.remove(key)?;
        self.len -= count;
        Some((instance, count))
    }
}
