// Made by bindings/rust/make of crates/hashbag_core/src/bag/retain.rt. Change that, or what `make` reads.
use crate::rattle::prelude::*;
// How a whole bag loses occurrences: all of them, or what a closure doesn't keep.

use crate::made::hashbag_core::bag::HashBag;
use std::hash::{BuildHasher, Hash};

impl<T, S> HashBag<T, S> {
    // Removes all occurrences. The newer table keeps its slots, all of them Empty, and an older one is freed.
    //
    // # Complexity
    //
    // It doesn't allocate and hashes nothing.
    //
    // # Examples
    //
    // ```
    // let mut bag = HashBag::new(alloc);
    // bag.insert_many("apple", 2)?;
    // bag.clear();
    // bag.len(); // 0
    // bag.slots(); // 16
    // Ok(())
    // ```
    pub fn clear(&mut self)
    {
        self.table.clear();
        self.len = 0;
    }
}

impl<T: Eq + Hash, S: BuildHasher> HashBag<T, S> {
    // Lowers the count of each distinct value to what `f` returns for it, if that is less. If `f` returns 0, the value is removed, and its stored
    // instance is dropped. `f` is called once for each distinct value, with its count, in no particular order.
    //
    // # Complexity
    //
    // It doesn't allocate and hashes nothing.
    //
    // # Examples
    //
    // ```
    // let mut bag = HashBag::new(alloc);
    // bag.insert_many(5u64, 3)?;
    // bag.insert_many(6, 1)?;
    // bag.retain(|value: &u64, _count: usize| if *value == 5 { 2 } else { 0 });
    // bag.contains(&5); // 2
    // bag.contains(&6); // 0
    // Ok(())
    // ```
    pub fn retain<F: FnMut(&T, usize) -> usize>(&mut self, f: F)
    {
        self.len = self.table.retain(f);
    }
}
