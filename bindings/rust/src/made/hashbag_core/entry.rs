// Made by bindings/rust/make of crates/hashbag_core/src/entry.rt. Change that, or what `make` reads.
use crate::rattle::prelude::*;
// `Entry`: the place of a value in a bag. In clauses `self.entry` is the receiver as it was passed: the bag in `HashBag::entry`, and the
// `Entry` in its own methods. `self.exit` has the receiver's borrows after the call. An `Entry` has one, so `self.exit.0.now` is the bag.

use crate::made::hashbag_core::bag::{BagError, FixedState, HashBag};
use std::fmt::{self, Debug, Formatter};
use std::hash::{BuildHasher, Hash};

// An entry of a bag: a borrow of the bag, and the given value.
//
// It is occupied if the bag has the value, and else vacant. An entry that is dropped changes nothing.
pub struct Entry<'a, T, S = FixedState> {
    pub(crate) bag: &'a mut HashBag<T, S>,
    pub(crate) value: T,
}

impl<T: Eq + Hash, S: BuildHasher> HashBag<T, S> {
    // Returns the entry of a value in the bag. It doesn't allocate, and looks nothing up.
    //
    // # Examples
    //
    // ```
    // let mut bag = HashBag::new(alloc);
    // bag.entry("apple").or_insert()?; // 1
    // bag.entry("apple").or_insert()?; // 1
    // bag.len(); // 1
    // Ok(())
    // ```
    pub fn entry(&mut self, value: T) -> Entry<'_, T, S>
    {
        Entry { bag: self, value }
    }
}

impl<'a, T: Eq + Hash, S: BuildHasher> Entry<'a, T, S> {

    // Returns the stored instance if the entry is occupied, else the given value.
    //
    // # Complexity
    //
    // It hashes the value once and doesn't allocate.
    //
    // # Examples
    //
    // ```
    // let mut bag = HashBag::new(alloc);
    // bag.insert("apple")?;
    // *bag.entry("apple").value(); // "apple"
    // Ok(())
    // ```
    pub fn value(&self) -> &T
    {
        match self.bag.get(&self.value) {
            Some((instance, _)) => instance,
            None => &self.value,
        }
    }

    // Calls `f` on a copy of the count, and sets the count to the number that `f` leaves there. On a vacant entry `f` isn't called.
    //
    // If `f` leaves 0, the value is removed, its stored instance is dropped, and the entry is vacant with the given value.
    //
    // # Errors
    //
    // `TooMany` exactly if the new total would pass the bag's limit; the old count is subtracted first. The bag is then unchanged, and the
    // entry is dropped with its value.
    //
    // # Complexity
    //
    // It hashes the value twice if the count is set, and else once. It doesn't allocate.
    //
    // # Examples
    //
    // ```
    // let mut bag = HashBag::new(alloc);
    // bag.insert_many("apple", 3)?;
    // let less = |count: &mut usize| *count -= 1;
    // bag.entry("apple").and_modify(less)?.or_insert()?; // 2
    // bag.entry("pear").and_modify(less)?.or_insert()?; // 1
    // Ok(())
    // ```
    pub fn and_modify<F: FnOnce(&mut usize)>(self, f: F) -> Result<Entry<'a, T, S>, BagError>
    {
        let Entry { bag, value } = self;
        let before = bag.contains(&value);
        if before == 0 {
            drop(f);
            return Ok(Entry { bag, value });
        }
        let mut n = before;
        f(&mut n);
        if n > bag.limit() - (bag.len() - before) {
            return Err(BagError::TooMany);
        }
        match bag.recount(&value, n) {
            Ok(_) => return Ok(Entry { bag, value }),
            Err(_) => return Err(BagError::TooMany),
        }
    }

    // Inserts the given value once if the entry is vacant, and returns the count after: [`Entry::or_insert_many`] with 1.
    //
    // # Errors
    //
    // - `TooMany` if the entry is vacant and the total would pass the bag's limit. That is tested first.
    // - `Memory` if the entry is vacant, there is no room, and an allocation fails.
    //
    // Then the bag is unchanged, and the value is dropped.
    //
    // # Examples
    //
    // ```
    // let mut bag = HashBag::new(alloc);
    // bag.insert_many("apple", 3)?;
    // bag.entry("apple").or_insert()?; // 3
    // bag.entry("pear").or_insert()?; // 1
    // Ok(())
    // ```
    pub fn or_insert(self) -> Result<usize, BagError>
    {
        self.or_insert_many(1)
    }

    // Inserts `n` occurrences of the given value if the entry is vacant, and returns the count after.
    //
    // If the entry is occupied, nothing changes: it returns the present count, and the given value is dropped. An `n` of 0 adds
    // nothing. Neither can fail.
    //
    // # Errors
    //
    // - `TooMany` if the entry is vacant and the total would pass the bag's limit. That is tested first.
    // - `Memory` if the entry is vacant, there is no room, and an allocation fails.
    //
    // Then the bag is unchanged, and the value is dropped.
    //
    // # Complexity
    //
    // It hashes the value twice if it inserts it, and else once. It allocates only if it inserts the value and there is no room.
    //
    // # Examples
    //
    // ```
    // let mut bag = HashBag::new(alloc);
    // bag.entry("apple").or_insert_many(3)?; // 3
    // bag.entry("apple").or_insert_many(5)?; // 3
    // Ok(())
    // ```
    pub fn or_insert_many(self, n: usize) -> Result<usize, BagError>
    {
        let Entry { bag, value } = self;
        let before = bag.contains(&value);
        if before > 0 {
            return Ok(before);
        }
        if n == 0 {
            return Ok(0);
        }
        if n > bag.limit() - bag.len() {
            return Err(BagError::TooMany);
        }
        bag.insert_new(value, n)?;
        Ok(n)
    }
}

impl<'a, T: Eq + Hash + Debug, S: BuildHasher> Debug for Entry<'a, T, S> {
    // Writes [`Entry::value`] and its count, as `Entry(5, 3)`.
    //
    // # Examples
    //
    // ```
    // let mut bag = HashBag::new(alloc);
    // bag.insert_many("apple", 3)?;
    // format!(in alloc; "{:?}", bag.entry("apple"))?; // Entry("apple", 3)
    // Ok(())
    // ```
    fn fmt(&self, f: &mut Formatter<'_>) -> fmt::Result {
        let value = self.value();
        let count = self.bag.contains(&self.value);
        write!(f, "Entry({value:?}, {count})")
    }
}
