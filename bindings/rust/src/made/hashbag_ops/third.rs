// Made by bindings/rust/make of crates/hashbag_ops/src/third.rt. Change that, or what `make` reads.
use crate::rattle::prelude::*;
// Bags that are built from two others, which stay unchanged.

use crate::made::hashbag_ops::combine::{keep_common, keep_most, merge_ref};
use crate::made::hashbag_core::{BagError, HashBag};
use std::hash::{BuildHasher, Hash};

// Returns the sum of two bags: each count is the sum of both. It has the limit of the first, and a clone of its hash state.
//
// The caller ensures that clones of the values equal them.
//
// # Errors
//
// - `TooMany` exactly if the total would pass the limit of `a`. That is tested before anything is cloned.
// - `Memory` if an allocation fails, or the clone of a value or of a state.
//
// # Complexity
//
// It clones both bags. Each distinct value of `a` is hashed once, and again if the sum grows; each of `b` at most four times.
//
// # Examples
//
// ```
// let mut stock: HashBag<&str> = HashBag::new(alloc);
// stock.insert_many("bolt", 2)?;
// let mut delivery: HashBag<&str> = HashBag::new(alloc);
// delivery.insert_many("bolt", 3)?;
// ops::sum(&stock, &delivery)?.contains(&"bolt"); // 5
// stock.contains(&"bolt"); // 2
// Ok(())
// ```
pub fn sum<
    T: Eq + Hash + TryClone,
    S: BuildHasher + TryClone,
    S2: BuildHasher + TryClone,
>(a: &HashBag<T, S>, b: &HashBag<T, S2>) -> Result<HashBag<T, S>, BagError>
{
    if b.len() > a.limit() - a.len() {
        return Err(BagError::TooMany);
    }
    let mut bag = a.try_clone()?;
    merge_ref(&mut bag, b)?;
    Ok(bag)
}

// Returns the union of two bags: each count is the greater of both. It has the limit of the first, and a clone of its hash state.
//
// The caller ensures that clones of the values equal them.
//
// # Errors
//
// - `TooMany` only if the total of the greater counts would pass the limit of `a`.
// - `Memory` if an allocation fails, or the clone of a value or of a state.
//
// # Complexity
//
// It clones both bags. Each distinct value of `a` is hashed at most three times, and each of `b` at most four times.
//
// # Examples
//
// ```
// let mut needed: HashBag<&str> = HashBag::new(alloc);
// needed.insert_many("bolt", 2)?;
// let mut other: HashBag<&str> = HashBag::new(alloc);
// other.insert_many("bolt", 3)?;
// ops::union(&needed, &other)?.contains(&"bolt"); // 3
// needed.contains(&"bolt"); // 2
// Ok(())
// ```
pub fn union<
    T: Eq + Hash + TryClone,
    S: BuildHasher + TryClone,
    S2: BuildHasher + TryClone,
>(a: &HashBag<T, S>, b: &HashBag<T, S2>) -> Result<HashBag<T, S>, BagError>
{
    let mut bag = a.try_clone()?;
    keep_most(&mut bag, b.try_clone()?)?;
    Ok(bag)
}

// Returns what two bags have in common: each count is the lesser of both. It has the limit of the first, and a clone of its hash state.
//
// The caller ensures that clones of the values equal them.
//
// # Errors
//
// `Memory` if an allocation fails, or the clone of a value or of the state.
//
// # Complexity
//
// It clones `a`, and hashes each of its distinct values twice.
//
// # Examples
//
// ```
// let mut stock: HashBag<&str> = HashBag::new(alloc);
// stock.insert_many("bolt", 5)?;
// let mut order: HashBag<&str> = HashBag::new(alloc);
// order.insert_many("bolt", 3)?;
// ops::intersection(&stock, &order)?.contains(&"bolt"); // 3
// stock.contains(&"bolt"); // 5
// Ok(())
// ```
pub fn intersection<
    T: Eq + Hash + TryClone,
    S: BuildHasher + TryClone,
    S2: BuildHasher,
>(a: &HashBag<T, S>, b: &HashBag<T, S2>) -> Result<HashBag<T, S>, BagError>
{
    let mut bag = a.try_clone()?;
    keep_common(&mut bag, b);
    Ok(bag)
}
