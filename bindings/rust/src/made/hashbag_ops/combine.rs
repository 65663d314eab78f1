// Made by bindings/rust/make of crates/hashbag_ops/src/combine.rt. Change that, or what `make` reads.
use crate::rattle::prelude::*;
// Sums of two bags, and what one bag keeps of its own by comparison with another.

use crate::made::hashbag_core::{BagError, HashBag, Spare};
use std::hash::{BuildHasher, Hash};
use std::iter::ExactSizeIterator;

// Adds all occurrences of `from` to `into`: each count is then the sum of both.
//
// Everything is added, or nothing. If a value is in both bags, the instance stored in `into` stays. The limit of `into` stays, and the limit
// of `from` doesn't matter.
//
// If `into` has room for the values that it lacks, its slots stay. Else it gets a table of slots that has room for the distinct values of both bags.
// If that table can't be allocated, `into` gets one with room for the values that it lacks.
//
// # Errors
//
// - `TooMany` exactly if the total would pass the limit of `into`. That is tested first.
// - `Memory` only if `into` lacks more values than it has room for, and an allocation fails.
//
// Then `into` is unchanged, and `from` is dropped.
//
// # Complexity
//
// Each distinct value of `from` is hashed once, and again if it is inserted when `into` has no room left. The values of `into` are hashed once if it
// gets other slots.
//
// If `into` isn't empty and might lack room, memory for the distinct values of both bags is allocated first. It is at most twice as much as is
// needed. If it isn't used, nothing is written to it before it is freed. If that allocation fails, each distinct value of `from` is hashed once
// more, to count the values that `into` lacks.
//
// # Examples
//
// ```
// let mut stock: HashBag<&str> = HashBag::new(alloc);
// stock.insert_many("bolt", 2)?;
// let mut delivery: HashBag<&str> = HashBag::new(alloc);
// delivery.insert_many("bolt", 3)?;
// delivery.insert("nut")?;
// ops::merge(&mut stock, delivery)?;
// stock.contains(&"bolt"); // 5
// stock.len(); // 6
// Ok(())
// ```
pub fn merge<T: Eq + Hash, S: BuildHasher, S2: BuildHasher>(
    into: &mut HashBag<T, S>,
    from: HashBag<T, S2>,
) -> Result<(), BagError>
{
    if from.len() > into.limit() - into.len() {
        return Err(BagError::TooMany);
    }
    if from.set_len() > into.room() && !into.is_empty() {
        if let Ok(spare) = into.spare(from.set_len()) {
            insert_beside_spare(into, from, spare);
            return Ok(());
        }
    }
    make_room(into, &from)?;
    into.extend_many(from.into_iter()).unwrap();
    Ok(())
}

// Returns whether an insertion of the value needs more slots: it is absent, and there is no room.
#[inline(always)]
fn has_no_room_for<T: Eq + Hash, S: BuildHasher>(
    bag: &HashBag<T, S>,
    value: &T,
) -> bool
{
    bag.room() == 0 && bag.contains(value) == 0
}

// Inserts all of `from`. If an absent value arrives and there is no room, the spare slots replace the slots of `into`; else they are freed.
fn insert_beside_spare<T: Eq + Hash, S: BuildHasher, S2: BuildHasher>(
    into: &mut HashBag<T, S>,
    from: HashBag<T, S2>,
    spare: Spare<T>,
)
{
    // Only for the proof: it uses the clause `bag` of `len`.
    let _len = into.len();
    let mut pairs = from.into_iter();
    'pairs: while let Some((value, n)) = pairs.next() {
        if has_no_room_for(into, &value) {
            into.use_spare(spare);
            into.insert_many(value, n).unwrap();
            into.extend_many(pairs).unwrap();
            return;
        }
        into.insert_many(value, n).unwrap();
    }
}

// Makes room for the values of `from` that `into` lacks. These values are counted only if there isn't room for all values of `from`.
fn make_room<T: Eq + Hash, S: BuildHasher, S2: BuildHasher>(
    into: &mut HashBag<T, S>,
    from: &HashBag<T, S2>,
) -> Result<(), BagError>
{
    if from.set_len() <= into.room() {
        return Ok(());
    }
    let lacked = lacked_by(into, from);
    into.reserve(lacked)?;
    Ok(())
}

// Returns how many distinct values of `from` a bag lacks.
fn lacked_by<T: Eq + Hash, S: BuildHasher, S2: BuildHasher>(
    bag: &HashBag<T, S>,
    from: &HashBag<T, S2>,
) -> usize
{
    if bag.is_empty() {
        return from.set_iter().len();
    }
    // Only for the proof: it uses the clause `within` of `limit`.
    let _limit = from.limit();
    from.not_in(bag).count()
}

// Adds clones of all occurrences of `from` to `into`, and leaves `from` unchanged: [`merge`] of a copy.
//
// The caller ensures that clones of the values equal them.
//
// # Errors
//
// - `TooMany` exactly if the total would pass the limit of `into`. That is tested before anything is cloned.
// - `Memory` if an allocation for the copy or for room fails, or the clone of a value or of the state.
//
// Then `into` is unchanged.
//
// # Complexity
//
// It allocates a copy of `from` while it runs. Each distinct value of `from` is hashed once more than by [`merge`], for the copy. Each of `into` is
// hashed once if `into` grows.
//
// # Examples
//
// ```
// let mut all: HashBag<&str> = HashBag::new(alloc);
// let mut day: HashBag<&str> = HashBag::new(alloc);
// day.insert_many("bolt", 3)?;
// ops::merge_ref(&mut all, &day)?;
// ops::merge_ref(&mut all, &day)?;
// all.contains(&"bolt"); // 6
// day.contains(&"bolt"); // 3
// Ok(())
// ```
pub fn merge_ref<
    T: Eq + Hash + TryClone,
    S: BuildHasher,
    S2: BuildHasher + TryClone,
>(into: &mut HashBag<T, S>, from: &HashBag<T, S2>) -> Result<(), BagError>
{
    if into.limit() - into.len() < from.len() {
        return Err(BagError::TooMany);
    }
    let copy = from.try_clone()?;
    merge(into, copy)
}

// Lowers each count in `bag` to the count in `other`, if that is less: of each value `bag` keeps as many as both bags have. A value that `other`
// lacks is removed, and its stored instance is dropped.
//
// # Complexity
//
// It hashes each distinct value of `bag` once. It doesn't allocate and can't fail.
//
// # Examples
//
// ```
// let mut stock: HashBag<&str> = HashBag::new(alloc);
// stock.insert_many("bolt", 5)?;
// stock.insert("nut")?;
// let mut order: HashBag<&str> = HashBag::new(alloc);
// order.insert_many("bolt", 3)?;
// ops::keep_common(&mut stock, &order);
// stock.contains(&"bolt"); // 3
// stock.contains(&"nut"); // 0
// Ok(())
// ```
pub fn keep_common<T: Eq + Hash, S: BuildHasher, S2: BuildHasher>(
    bag: &mut HashBag<T, S>,
    other: &HashBag<T, S2>,
)
{
    bag.retain(
        |value: &T, _count: usize| -> usize
        { other.contains(value) },
    );
}

// Lowers each count in `bag` by the count in `other`, to 0 at least. A value whose count becomes 0 is removed, and its stored instance is dropped.
//
// # Complexity
//
// It hashes each distinct value of one of the bags once: of `other` if that bag has fewer, else of `bag`. It doesn't allocate and can't fail.
//
// # Examples
//
// ```
// let mut stock: HashBag<&str> = HashBag::new(alloc);
// stock.insert_many("bolt", 5)?;
// let mut sold: HashBag<&str> = HashBag::new(alloc);
// sold.insert_many("bolt", 3)?;
// sold.insert("nut")?;
// ops::take_away(&mut stock, &sold);
// stock.contains(&"bolt"); // 2
// stock.contains(&"nut"); // 0
// Ok(())
// ```
pub fn take_away<T: Eq + Hash, S: BuildHasher, S2: BuildHasher>(
    bag: &mut HashBag<T, S>,
    other: &HashBag<T, S2>,
)
{
    if other.set_len() < bag.set_len() {
        for (value, n) in other.set_iter() {
            bag.remove_up_to(value, n);
        }
        return;
    }
    bag.retain(
        |value: &T, n: usize| -> usize
        { n.saturating_sub(other.contains(value)) },
    );
}

// Raises each count in `into` to the greater of the counts in both bags, and uses `from` up.
//
// What `from` has more often is added as [`merge`] does, so the limit of `into` stays.
//
// # Errors
//
// - `TooMany` exactly if the total of the greater counts would pass the limit of `into`. That is tested before anything grows.
// - `Memory` if an allocation of room for the values that `into` lacks fails.
//
// Then `into` is unchanged, and `from` is dropped.
//
// # Complexity
//
// Each distinct value of `from` is hashed at most three times. Each of `into` is hashed once if `into` has fewer distinct values than `from`, and
// once more if `into` grows.
//
// # Examples
//
// ```
// let mut needed: HashBag<&str> = HashBag::new(alloc);
// needed.insert_many("bolt", 2)?;
// let mut other: HashBag<&str> = HashBag::new(alloc);
// other.insert_many("bolt", 3)?;
// other.insert("nut")?;
// ops::keep_most(&mut needed, other)?;
// needed.contains(&"bolt"); // 3
// needed.contains(&"nut"); // 1
// Ok(())
// ```
pub fn keep_most<T: Eq + Hash, S: BuildHasher, S2: BuildHasher>(
    into: &mut HashBag<T, S>,
    mut from: HashBag<T, S2>,
) -> Result<(), BagError>
{
    take_away(&mut from, into);
    merge(into, from)
}
