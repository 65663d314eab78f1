//! Room for values.
use crate::checks::{Refusals, Wrong, check};
use crate::counts::{has_counts, insert_two, tables_of, two_fives};
use hashbag::{BagError, FixedState, HashBag};
use std::alloc::Global;
use std::hash::BuildHasher;
use tests_kit::{IdentityState, OneState, ParityState};

/// Checks that a bag has room for this number of values more.
pub fn has_room(bag: &HashBag<u64>, n: usize, wrong: &'static str) -> Result<(), Wrong> {
    check(bag.capacity() >= bag.set_len().saturating_add(n), wrong)
}

// Makes room for more values, and returns whether it was done.
fn reserve(bag: &mut HashBag<u64>, n: usize, refusals: &mut Refusals) -> Result<bool, Wrong> {
    let done = refusals.is_done(bag.reserve(n))?;
    has_counts(bag, (2, 0, 0), "reserve: the counts")?;
    if done {
        has_room(bag, n, "reserve: the room")?;
    } else {
        check(tables_of(bag) == (16, 0, 11), "reserve: refused")?;
    }
    Ok(done)
}

// A bag with 5 twice and room for 100 more values. If that room can't be allocated, it is made with memory again.
fn roomy(alloc: Global, refusals: &mut Refusals) -> Result<HashBag<u64>, Wrong> {
    let mut bag = two_fives(alloc, refusals)?;
    if !reserve(&mut bag, 100, refusals)? {
        let done = reserve(&mut bag, 100, refusals)?;
        check(done, "reserve: with memory again")?;
    }
    Ok(bag)
}

/// Makes room in a bag.
pub fn room(alloc: Global, refusals: &mut Refusals) -> Result<(), Wrong> {
    drop(roomy(alloc, refusals)?);
    Ok(())
}

/// Makes room in a small bag and frees it: then there is less, or as much if that fails.
pub fn room_given_back(alloc: Global, refusals: &mut Refusals) -> Result<(), Wrong> {
    let mut bag = roomy(alloc, refusals)?;
    let done = refusals.is_done(bag.shrink_to_fit())?;
    has_counts(&bag, (2, 0, 0), "shrink_to_fit: the counts")?;
    let wanted = if done { (16, 0, 11) } else { (256, 0, 191) };
    check(tables_of(&bag) == wanted, "shrink_to_fit: the slots")
}

/// Makes a bag with room.
pub fn room_from_the_start(alloc: Global, refusals: &mut Refusals) -> Result<(), Wrong> {
    match refusals.answer(HashBag::<u64>::with_capacity(alloc, 100))? {
        Some(bag) => {
            has_counts(&bag, (0, 0, 0), "with_capacity: the counts")?;
            has_room(&bag, 100, "with_capacity: the room")
        }
        None => Ok(()),
    }
}

// Makes room for 13 values in a new bag.
fn reserve_thirteen<S: BuildHasher + Drop>(
    bag: &mut HashBag<u64, S>,
    refusals: &mut Refusals,
) -> Result<(), Wrong> {
    if refusals.is_done(bag.reserve(13))? {
        return Ok(());
    }
    check(
        tables_of(bag) == (0, 0, 0),
        "reserve: of a new bag, refused",
    )?;
    let done = refusals.is_done(bag.reserve(13))?;
    check(done, "reserve: of a new bag, with memory again")
}

// A new bag with room for 13 values.
fn thirteen<S: BuildHasher + Drop>(
    alloc: Global,
    state: S,
    refusals: &mut Refusals,
) -> Result<HashBag<u64, S>, Wrong> {
    let mut bag = HashBag::with_hasher(alloc, state);
    reserve_thirteen(&mut bag, refusals)?;
    Ok(bag)
}

// Checks that the bag has the 13 values from 0 on, twice each, and no other.
fn has_two_each<S: BuildHasher + Drop>(
    bag: &HashBag<u64, S>,
    wrong: &'static str,
) -> Result<(), Wrong> {
    for value in 0..13 {
        check(bag.contains(&value) == 2, wrong)?;
    }
    check((bag.len(), bag.set_len()) == (26, 13), wrong)
}

// Inserts the 13 values from 0 on, twice each. Room for too many values then fails.
fn filled_within_room<S: BuildHasher + Drop>(
    bag: &mut HashBag<u64, S>,
    refusals: &mut Refusals,
) -> Result<(), Wrong> {
    for value in 0..13 {
        let done = insert_two(bag, value, 0, refusals)?;
        check(done, "reserve: a value that it has room for, refused")?;
    }
    let answer = bag.reserve(usize::MAX);
    check(
        answer == Err(BagError::Memory),
        "reserve: for too many values",
    )?;
    check(tables_of(bag) == (32, 0, 11), "reserve: the slots")
}

// Makes room for 13 values, which are then inserted without a request for memory: none of them fails, whichever request does. For more
// values than there may be it returns `Memory`, and changes nothing.
fn reserved_under<S: BuildHasher + Drop>(
    alloc: Global,
    state: S,
    refusals: &mut Refusals,
) -> Result<(), Wrong> {
    let mut bag = thirteen(alloc, state, refusals)?;
    filled_within_room(&mut bag, refusals)?;
    has_two_each(&bag, "reserve: the values")
}

/// Room for 13 values under each state.
pub fn reserved_room(alloc: Global, refusals: &mut Refusals) -> Result<(), Wrong> {
    reserved_under(alloc, FixedState::new(), refusals)?;
    reserved_under(alloc, OneState, refusals)?;
    reserved_under(alloc, ParityState, refusals)?;
    reserved_under(alloc, IdentityState, refusals)
}
