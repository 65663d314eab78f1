// Made by bindings/rust/make of crates/hashbag_ops/src/compare.rt. Change that, or what `make` reads.
use crate::rattle::prelude::*;
// Whether one bag holds all of another, and whether two have nothing in common.

use crate::made::hashbag_core::HashBag;
use std::hash::{BuildHasher, Hash};

// Returns whether each value occurs in `bag` at least as often as in `other`.
//
// # Complexity
//
// It hashes each distinct value of `other` at most once, stops at the first value of which `bag` has too few, and doesn't allocate.
//
// # Examples
//
// ```
// let mut stock: HashBag<&str> = HashBag::new(alloc);
// stock.insert_many("bolt", 5)?;
// let mut order: HashBag<&str> = HashBag::new(alloc);
// order.insert_many("bolt", 3)?;
// ops::contains_all(&stock, &order); // true
// ops::contains_all(&order, &stock); // false
// Ok(())
// ```
pub fn contains_all<T: Eq + Hash, S: BuildHasher, S2: BuildHasher>(
    bag: &HashBag<T, S>,
    other: &HashBag<T, S2>,
) -> bool
{
    other.difference(bag).next().is_none()
}

// Returns whether no value is in both bags.
//
// # Complexity
//
// It walks over the bag with fewer distinct values, hashes each of these at most once, and stops at the first that the other bag has too. It doesn't
// allocate.
//
// # Examples
//
// ```
// let mut fruit: HashBag<&str> = HashBag::new(alloc);
// fruit.insert("apple")?;
// let mut nuts: HashBag<&str> = HashBag::new(alloc);
// nuts.insert("hazel")?;
// ops::is_disjoint(&fruit, &nuts); // true
// ops::is_disjoint(&fruit, &fruit); // false
// Ok(())
// ```
pub fn is_disjoint<T: Eq + Hash, S: BuildHasher, S2: BuildHasher>(
    a: &HashBag<T, S>,
    b: &HashBag<T, S2>,
) -> bool
{
    if a.set_len() <= b.set_len() {
        has_none_of(a, b)
    } else {
        has_none_of(b, a)
    }
}

// Returns whether no value of the bag that is walked over is in the other one.
fn has_none_of<T: Eq + Hash, S: BuildHasher, S2: BuildHasher>(
    walked: &HashBag<T, S>,
    other: &HashBag<T, S2>,
) -> bool
{
    for (value, _) in walked.set_iter() {
        if other.contains(value) > 0 {
            return false;
        }
    }
    true
}
