//! Uses that walk over all values of one bag.
use anyhow::Result;
use hashbag::{BagError, HashBag};
use hashbag_ops::{most_common, sorted};
use serde_json::Value;
use std::alloc::Global;
use std::mem;

fn sum_by_iter(bag: &HashBag<u64>) -> u64 {
    let mut sum = 0u64;
    for value in bag.iter() {
        sum = sum.wrapping_add(*value);
    }
    sum
}

/// The sum of the distinct values.
pub fn sum_by_set_iter(bag: &HashBag<u64>) -> u64 {
    let mut sum = 0u64;
    for (value, _) in bag.set_iter() {
        sum = sum.wrapping_add(*value);
    }
    sum
}

fn sum_by_into_iter(bag: HashBag<u64>) -> u64 {
    let mut sum = 0u64;
    for (value, _) in bag {
        sum = sum.wrapping_add(value);
    }
    sum
}

fn sum_by_drain(bag: &mut HashBag<u64>) -> u64 {
    let mut sum = 0u64;
    for (value, _) in bag.drain() {
        sum = sum.wrapping_add(value);
    }
    sum
}

// Takes one value out, and drops the others: how often it occurred.
fn first_drained(bag: &mut HashBag<u64>) -> usize {
    match bag.drain().next() {
        Some((_, count)) => count,
        None => 0,
    }
}

// How often the bag is equal to its clone: seen from the one, and from the other.
fn equals(bag: &HashBag<u64>) -> Result<u64, BagError> {
    let clone = bag.clone()?;
    Ok((*bag == clone) as u64 + (clone == *bag) as u64)
}

// The sum of the values in ascending order, each times its place.
fn sum_by_places(alloc: Global, bag: &HashBag<u64>) -> Result<u64, BagError> {
    let mut sum = 0u64;
    let mut place = 0u64;
    for (value, _) in sorted(alloc, bag)? {
        place = place.wrapping_add(1);
        sum = sum.wrapping_add(value.wrapping_mul(place));
    }
    Ok(sum)
}

// The sum of the ten most common values, of which the least come first.
fn sum_of_commonest(alloc: Global, bag: &HashBag<u64>) -> Result<u64, BagError> {
    let mut sum = 0u64;
    for (value, _) in most_common(alloc, bag, 10)? {
        sum = sum.wrapping_add(*value);
    }
    Ok(sum)
}

// How many pairs the tree has.
fn pairs_of_tree(alloc: Global, bag: &HashBag<u64>) -> Result<usize, BagError> {
    match bag.to_value(alloc)? {
        Value::Array(pairs) => Ok(pairs.len()),
        _ => Ok(0),
    }
}

// How long the bag is as a text.
fn text_length(alloc: Global, bag: &HashBag<u64>) -> Result<usize> {
    Ok(format!(in alloc; "{bag:?}")?.len())
}

// Keeps the even values: how many.
fn evens(bag: &mut HashBag<u64>) -> usize {
    bag.retain(|value: &u64, _count: usize| if *value % 2 == 0 { 1 } else { 0 });
    bag.set_len()
}

// How many slots there are after a clear.
fn slots_cleared(bag: &mut HashBag<u64>) -> usize {
    bag.clear();
    bag.slots()
}

/// Does the use of that name, if it is one of these.
pub fn walked(alloc: Global, what: &str, bag: &mut HashBag<u64>) -> Result<Option<u64>> {
    let number = match what {
        "len" => bag.len() as u64,
        "iter" => sum_by_iter(bag),
        "set_iter" => sum_by_set_iter(bag),
        "into_iter" => sum_by_into_iter(mem::replace(bag, HashBag::new(alloc))),
        "drain" => sum_by_drain(bag),
        "drain_one" => first_drained(bag) as u64,
        "clone" => sum_by_set_iter(&bag.clone()?),
        "equal" => equals(bag)?,
        "sorted" => sum_by_places(alloc, bag)?,
        "most_common" => sum_of_commonest(alloc, bag)?,
        "to_value" => pairs_of_tree(alloc, bag)? as u64,
        "debug" => text_length(alloc, bag)? as u64,
        "retain" => evens(bag) as u64,
        "clear" => slots_cleared(bag) as u64,
        _ => return Ok(None),
    };
    Ok(Some(number))
}
