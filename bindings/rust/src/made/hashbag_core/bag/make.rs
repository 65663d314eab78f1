// Made by bindings/rust/make of crates/hashbag_core/src/bag/make.rt. Change that, or what `make` reads.
use crate::rattle::prelude::*;
// How bags are made: empty ones, with room or with a limit, and clones.

use crate::made::hashbag_core::bag::{BagError, FixedState, HashBag};
use crate::made::hashbag_table::Table;
use crate::rattle::Global;
use std::hash::{BuildHasher, Hash};

impl<T: Eq + Hash> HashBag<T, FixedState> {
    // Returns an empty bag without slots, whose values are hashed with fixed keys. It doesn't allocate.
    //
    // # Examples
    //
    // ```
    // let mut bag = HashBag::new(alloc);
    // bag.insert("apple")?;
    // bag.len(); // 1
    // Ok(())
    // ```
    pub fn new(alloc: Global) -> HashBag<T, FixedState>
    {
        HashBag::with_hasher(alloc, FixedState::new())
    }

    // Returns an empty bag with room for `n` distinct values, which are hashed with fixed keys. It has the least table of slots with that
    // room.
    //
    // # Errors
    //
    // `Memory` if the allocation fails, or if `n` is more than 3 * 2^57. With `n` 0 it can't fail.
    //
    // # Complexity
    //
    // It allocates the slots at once, none with `n` 0. The first `n` insertions of absent values don't allocate slots.
    //
    // # Examples
    //
    // ```
    // let mut bag = HashBag::with_capacity(alloc, 20)?;
    // bag.room(); // 24
    // // There is room, so this doesn't allocate.
    // bag.insert("apple")?;
    // Ok(())
    // ```
    pub fn with_capacity(alloc: Global, n: usize) -> Result<HashBag<T, FixedState>, BagError>
    {
        HashBag::with_capacity_and_hasher(alloc, n, FixedState::new())
    }
}

impl<T: Eq + Hash, S: BuildHasher> HashBag<T, S> {
    // Returns an empty bag without slots, whose values `hasher` hashes. It doesn't allocate.
    //
    // # Examples
    //
    // ```
    // let state = RandomState::new(&rt)?;
    // let mut bag = HashBag::with_hasher(alloc, state);
    // bag.insert("apple")?;
    // bag.contains(&"apple"); // 1
    // Ok(())
    // ```
    pub fn with_hasher(alloc: Global, hasher: S) -> HashBag<T, S>
    {
        HashBag::with_limit(alloc, hasher, usize::MAX)
    }

    // Returns an empty bag without slots, whose values `hasher` hashes, and whose total is never above `most`. It doesn't allocate.
    //
    // # Examples
    //
    // ```
    // let mut bag = HashBag::with_limit(alloc, FixedState::new(), 2);
    // bag.insert_many("apple", 2)?;
    // bag.insert("pear").err(); // Some(TooMany)
    // Ok(())
    // ```
    pub fn with_limit(alloc: Global, hasher: S, most: usize) -> HashBag<T, S>
    {
        HashBag {
            table: Table::new(alloc, hasher),
            len: 0,
            most,
        }
    }

    // Returns an empty bag with room for `n` distinct values, which `hasher` hashes. It has the least table of slots with that room.
    //
    // # Errors
    //
    // `Memory` if the allocation fails, or if `n` is more than 3 * 2^57. With `n` 0 it can't fail.
    //
    // # Complexity
    //
    // It allocates the slots at once, none with `n` 0. The first `n` insertions of absent values don't allocate slots.
    //
    // # Examples
    //
    // ```
    // let state = RandomState::new(&rt)?;
    // let mut bag = HashBag::with_capacity_and_hasher(alloc, 3, state)?;
    // // There is room, so this doesn't allocate.
    // bag.insert("apple")?;
    // bag.slots(); // 16
    // Ok(())
    // ```
    pub fn with_capacity_and_hasher(
        alloc: Global,
        n: usize,
        hasher: S,
    ) -> Result<HashBag<T, S>, BagError>
    {
        let table = Table::with_room(alloc, hasher, n)?;
        Ok(HashBag {
            table,
            len: 0,
            most: usize::MAX,
        })
    }

    // Returns a bag with a clone of each stored instance, with the same counts and the same limit, under a clone of the state.
    //
    // The caller ensures that clones of the values equal them.
    //
    // # Errors
    //
    // `Memory` if an allocation fails, or the clone of a value or of the state. Then there is no new bag.
    //
    // # Complexity
    //
    // It allocates the least table of slots that has room for all values, and hashes each clone once.
    //
    // # Examples
    //
    // ```
    // let mut bag = HashBag::new(alloc);
    // bag.insert_many("apple", 2)?;
    // let other = bag.try_clone()?;
    // bag.remove(&"apple");
    // other.contains(&"apple"); // 2
    // Ok(())
    // ```
    pub fn try_clone(&self) -> Result<HashBag<T, S>, BagError>
    where
        T: TryClone,
        S: TryClone,
    {
        let table = self.table.clone_in()?;
        Ok(HashBag {
            table,
            len: self.len,
            most: self.most,
        })
    }
}
