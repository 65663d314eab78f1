//! Extends, collections and clones of bags of numbers.
use crate::checks::{Refusals, Wrong, check};
use crate::counts::tables_of;
use hashbag::{BagError, HashBag};
use std::alloc::Global;

// The values that are new, each as often as its call says.
const NEW: [u64; 5] = [1, 2, 3, 4, 5];

// A bag that has room for two more values, so that the third new one makes an allocation. `None` if a value failed.
fn filled(alloc: Global, refusals: &mut Refusals) -> Result<Option<HashBag<u64>>, Wrong> {
    let mut bag: HashBag<u64> = HashBag::new(alloc);
    Ok(if fill(&mut bag, refusals)? {
        Some(bag)
    } else {
        None
    })
}

// Inserts values until there is room for just two, and returns whether none failed.
fn fill(bag: &mut HashBag<u64>, refusals: &mut Refusals) -> Result<bool, Wrong> {
    for value in 100..130u64 {
        if bag.capacity() == bag.set_len().saturating_add(2) {
            return Ok(true);
        }
        if bag.len() >= 30 {
            return Err(Wrong("a filled bag: its total"));
        }
        if refusals.answer(bag.insert(value))?.is_none() {
            return Ok(false);
        }
    }
    Err(Wrong("a filled bag: never room for just two"))
}

// Checks that after an extend by the new values all of them are there, or the two for which there was room.
fn has_new(
    bag: &HashBag<u64>,
    is_done: bool,
    before: usize,
    each: usize,
    wrong: &'static str,
) -> Result<(), Wrong> {
    let number = if is_done { 5u64 } else { 2 };
    for value in &NEW {
        let wanted = if *value <= number { each } else { 0 };
        check(bag.contains(value) == wanted, wrong)?;
    }
    let total = each.saturating_mul(number as usize).saturating_add(before);
    check(bag.len() == total, wrong)
}

// Checks the slots, those that wait, and the room of a filled bag after an extend by the new values.
fn has_tables(bag: &HashBag<u64>, is_done: bool) -> Result<(), Wrong> {
    let wanted = if is_done { (32, 0, 9) } else { (16, 0, 0) };
    check(tables_of(bag) == wanted, "an extend: the slots")
}

fn extend(mut bag: HashBag<u64>, refusals: &mut Refusals) -> Result<(), Wrong> {
    let before = bag.len();
    let done = refusals.is_done(bag.extend(NEW.iter().copied()))?;
    has_tables(&bag, done)?;
    has_new(&bag, done, before, 1, "extend")
}

fn extend_many(mut bag: HashBag<u64>, refusals: &mut Refusals) -> Result<(), Wrong> {
    let before = bag.len();
    let pairs = NEW.iter().map(|value| (*value, 2usize));
    let done = refusals.is_done(bag.extend_many(pairs))?;
    has_tables(&bag, done)?;
    has_new(&bag, done, before, 2, "extend_many")
}

fn extend_refs(mut bag: HashBag<u64>, refusals: &mut Refusals) -> Result<(), Wrong> {
    let before = bag.len();
    let done = refusals.is_done(bag.extend_refs(NEW.iter()))?;
    has_tables(&bag, done)?;
    has_new(&bag, done, before, 1, "extend_refs")
}

fn extend_refs_many(mut bag: HashBag<u64>, refusals: &mut Refusals) -> Result<(), Wrong> {
    let before = bag.len();
    let pairs = NEW.iter().map(|value| (value, 3usize));
    let done = refusals.is_done(bag.extend_refs_many(pairs))?;
    has_tables(&bag, done)?;
    has_new(&bag, done, before, 3, "extend_refs_many")
}

/// Each extend, of a bag whose third new value makes an allocation.
pub fn extends(alloc: Global, refusals: &mut Refusals) -> Result<(), Wrong> {
    if let Some(bag) = filled(alloc, refusals)? {
        extend(bag, refusals)?;
    }
    if let Some(bag) = filled(alloc, refusals)? {
        extend_many(bag, refusals)?;
    }
    if let Some(bag) = filled(alloc, refusals)? {
        extend_refs(bag, refusals)?;
    }
    if let Some(bag) = filled(alloc, refusals)? {
        extend_refs_many(bag, refusals)?;
    }
    Ok(())
}

fn from_iter(alloc: Global, refusals: &mut Refusals) -> Result<(), Wrong> {
    let made: Result<HashBag<u64>, BagError> = HashBag::from_iter(alloc, NEW.iter().copied());
    match refusals.answer(made)? {
        Some(bag) => has_new(&bag, true, 0, 1, "from_iter"),
        None => Ok(()),
    }
}

fn from_counts(alloc: Global, refusals: &mut Refusals) -> Result<(), Wrong> {
    let pairs = NEW.iter().map(|value| (*value, 4usize));
    let made: Result<HashBag<u64>, BagError> = HashBag::from_counts(alloc, pairs);
    match refusals.answer(made)? {
        Some(bag) => has_new(&bag, true, 0, 4, "from_counts"),
        None => Ok(()),
    }
}

// Checks that the clone is equal, or there is none.
fn cloned(bag: &HashBag<u64>, refusals: &mut Refusals) -> Result<(), Wrong> {
    match refusals.answer(bag.clone())? {
        Some(clone) => check(clone == *bag, "clone: it is equal"),
        None => Ok(()),
    }
}

// Checks that the bag is as it was after a clone.
fn clone(alloc: Global, refusals: &mut Refusals) -> Result<(), Wrong> {
    let Some(bag) = filled(alloc, refusals)? else {
        return Ok(());
    };
    let before = bag.len();
    cloned(&bag, refusals)?;
    let values = (bag.len(), bag.set_len(), bag.contains(&100));
    check(
        (values, tables_of(&bag)) == ((before, before, 1), (16, 0, 2)),
        "clone: its source",
    )
}

/// Both collections and a clone: there is a bag, or none.
pub fn collections(alloc: Global, refusals: &mut Refusals) -> Result<(), Wrong> {
    from_iter(alloc, refusals)?;
    from_counts(alloc, refusals)?;
    clone(alloc, refusals)
}
