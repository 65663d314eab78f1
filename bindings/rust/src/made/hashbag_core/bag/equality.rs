// Made by bindings/rust/make of crates/hashbag_core/src/bag/equality.rt. Change that, or what `make` reads.
use crate::rattle::prelude::*;
// Equality of bags.

use crate::made::hashbag_core::bag::HashBag;
use std::hash::{BuildHasher, Hash};

// Two bags are equal if each value occurs as often in one as in the other. The stored instances, the states, the limits, the room and the history of
// the bags don't matter.
impl<T: Eq + Hash, S: BuildHasher> PartialEq for HashBag<T, S> {

    // Returns whether each value occurs as often in one bag as in the other.
    //
    // # Complexity
    //
    // It compares the totals, then looks up each distinct value of one bag in the other, and doesn't allocate.
    //
    // # Examples
    //
    // ```
    // let mut first = HashBag::new(alloc);
    // first.insert("apple")?;
    // first.insert("pear")?;
    // let mut second = HashBag::with_capacity(alloc, 20)?;
    // second.insert("pear")?;
    // second.insert("apple")?;
    // first == second; // true
    // Ok(())
    // ```
    fn eq(&self, other: &HashBag<T, S>) -> bool {
        if self.len != other.len {
            return false;
        }
        for (value, count) in self.table.walk() {
            if other.contains(value) != count {
                return false;
            }
        }
        true
    }
}

impl<T: Eq + Hash, S: BuildHasher> Eq for HashBag<T, S> {
}
