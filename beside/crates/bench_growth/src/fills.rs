//! Uses that insert values, remove them and look them up, and that walk over a bag that has none.
use crate::bags::{FIRST, risen};
use anyhow::Result;
use hashbag::{BagError, FixedState, HashBag};
use std::alloc::Global;
use std::mem;

// `n` values in descending order.
fn fallen(alloc: Global, n: u64) -> Result<HashBag<u64>, BagError> {
    let mut bag = HashBag::new(alloc);
    for place in 0..n {
        bag.insert((n - place).wrapping_add(FIRST))?;
    }
    Ok(bag)
}

// `n` values in another order. The prime 7,919 must not divide `n`.
fn shuffled(alloc: Global, n: u64) -> Result<HashBag<u64>, BagError> {
    let mut bag = HashBag::new(alloc);
    for place in 0..n {
        bag.insert((place.wrapping_mul(7919) % n).wrapping_add(FIRST))?;
    }
    Ok(bag)
}

// Makes room for each value before it is inserted, and gives back what is not needed after that.
fn reserved_and_shrunk(alloc: Global, n: u64) -> Result<HashBag<u64>, BagError> {
    let mut bag = HashBag::new(alloc);
    for place in 0..n {
        bag.reserve(1)?;
        bag.insert(place.wrapping_add(FIRST))?;
        bag.shrink_to_fit()?;
    }
    Ok(bag)
}

// Inserts each value into another bag, in the order of a walk.
fn copied_by_walk(alloc: Global, bag: &HashBag<u64>) -> Result<HashBag<u64>, BagError> {
    let mut copy = HashBag::new(alloc);
    for (value, count) in bag.set_iter() {
        copy.insert_many(*value, count)?;
    }
    Ok(copy)
}

fn copied_by_extend(alloc: Global, bag: HashBag<u64>) -> Result<HashBag<u64>, BagError> {
    let mut copy = HashBag::new(alloc);
    copy.extend_many(bag.into_iter())?;
    Ok(copy)
}

fn copied_by_counts(alloc: Global, bag: HashBag<u64>) -> Result<HashBag<u64>, BagError> {
    let copy: HashBag<u64, FixedState> = HashBag::from_counts(alloc, bag.into_iter())?;
    Ok(copy)
}

// Removes a value and inserts one that is absent, by turns.
fn turned(bag: &mut HashBag<u64>, n: u64) -> Result<usize, BagError> {
    for place in 0..n {
        let value = place.wrapping_add(FIRST);
        bag.remove(&value);
        bag.insert(value.wrapping_add(n))?;
    }
    Ok(bag.set_len())
}

// Clears the bag, and `n` times walks over its slots while they have no value. Returns how many values were found.
fn idled(bag: &mut HashBag<u64>, n: u64) -> u64 {
    let mut met = 0u64;
    bag.clear();
    for _ in 0..n {
        bag.clear();
        bag.retain(|_value: &u64, _count: usize| 1);
        if bag.set_iter().next().is_some() {
            met = met.wrapping_add(1);
        }
    }
    met
}

// The sum of the counts of `n` values from `from` on.
fn found(bag: &HashBag<u64>, from: u64, n: u64) -> u64 {
    let mut sum = 0u64;
    for place in 0..n {
        sum = sum.wrapping_add(bag.contains(&from.wrapping_add(place)) as u64);
    }
    sum
}

/// Does the use of that name, if it is one of these. A copy by `extend` or by counts takes the place of the bag.
pub fn filled(alloc: Global, what: &str, bag: &mut HashBag<u64>, n: u64) -> Result<Option<u64>> {
    let number = match what {
        "rising" => risen(alloc, FIRST, n)?.set_len() as u64,
        "falling" => fallen(alloc, n)?.set_len() as u64,
        "shuffled" => shuffled(alloc, n)?.set_len() as u64,
        "reserve_and_shrink" => reserved_and_shrunk(alloc, n)?.set_len() as u64,
        "copy_by_walk" => copied_by_walk(alloc, bag)?.set_len() as u64,
        "copy_by_extend" => {
            *bag = copied_by_extend(alloc, mem::replace(bag, HashBag::new(alloc)))?;
            bag.set_len() as u64
        }
        "copy_by_counts" => {
            *bag = copied_by_counts(alloc, mem::replace(bag, HashBag::new(alloc)))?;
            bag.set_len() as u64
        }
        "turns" => turned(bag, n)? as u64,
        "idle" => idled(bag, n),
        "found" => found(bag, FIRST, n),
        "absent" => found(bag, n.wrapping_add(FIRST), n),
        _ => return Ok(None),
    };
    Ok(Some(number))
}
