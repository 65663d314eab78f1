//! Insertions and replacements.
use crate::checks::{Refusals, Wrong, check};
use crate::counts::{has_counts, insert_two, tables_of, two_fives};
use hashbag::HashBag;
use std::alloc::Global;

// After a failed insertion of an absent value: those before it are found. 5 is present, and is inserted all the same, and so is the
// value with memory again.
fn insert_after_refusal(
    bag: &mut HashBag<u64>,
    value: u64,
    refusals: &mut Refusals,
) -> Result<(), Wrong> {
    check(bag.contains(&value) == 0, "insertion: refused")?;
    for former in 100..value {
        check(bag.contains(&former) == 2, "insertion: those before")?;
    }
    let done = insert_two(bag, 5, 2, refusals)?;
    check(done, "insertion: of a value that is there")?;
    let done = insert_two(bag, value, 0, refusals)?;
    check(done, "insertion: with memory again")
}

// Inserts a value twice into a bag of values that occur twice, and returns whether it was inserted. A failure changes no slot,
// and occurs only if no room is left.
fn insert_next(
    bag: &mut HashBag<u64>,
    value: u64,
    values: usize,
    refusals: &mut Refusals,
) -> Result<bool, Wrong> {
    let before = tables_of(bag);
    let done = insert_two(bag, value, 0, refusals)?;
    if !done {
        check(tables_of(bag) == before, "insertion: the slots")?;
        check(bag.room() == 0, "insertion: refused with room")?;
    }
    let values = if done {
        values.saturating_add(1)
    } else {
        values
    };
    check(bag.set_len() == values, "insertion: the values")?;
    check(
        bag.len() == values.saturating_mul(2),
        "insertion: the total",
    )?;
    Ok(done)
}

/// Inserts 50 values in turn, each twice, so the tables grow from 0, 16, 32 and 64 slots. A failure leaves all that was inserted before.
pub fn insertions(alloc: Global, refusals: &mut Refusals) -> Result<(), Wrong> {
    let mut bag = two_fives(alloc, refusals)?;
    for at in 0..50usize {
        let value = 100 + at as u64;
        if !insert_next(&mut bag, value, at + 1, refusals)? {
            return insert_after_refusal(&mut bag, value, refusals);
        }
        check(bag.contains(&value) == 2, "insertion: the count")?;
    }
    Ok(())
}

// Replaces a value, checks the count before, and returns whether it was done.
fn replace(
    bag: &mut HashBag<u64>,
    value: u64,
    before: usize,
    refusals: &mut Refusals,
) -> Result<bool, Wrong> {
    let Some(answer) = refusals.answer(bag.replace(value))? else {
        return Ok(false);
    };
    check(answer == before, "replace: its answer")?;
    Ok(true)
}

fn replace_both(bag: &mut HashBag<u64>, refusals: &mut Refusals) -> Result<(), Wrong> {
    let done = replace(bag, 5, 2, refusals)?;
    check(done, "replace: of a value that is there, refused")?;
    has_counts(bag, (1, 0, 0), "replace: of a value that is there")?;
    let done = replace(bag, 6, 0, refusals)?;
    check(done, "replace: of an absent value, refused with room")?;
    has_counts(bag, (1, 1, 0), "replace: of an absent value")
}

/// Replaces a present value, and an absent one for which there is room: neither makes an allocation.
pub fn replacements(alloc: Global, refusals: &mut Refusals) -> Result<(), Wrong> {
    let mut bag = two_fives(alloc, refusals)?;
    replace_both(&mut bag, refusals)
}
