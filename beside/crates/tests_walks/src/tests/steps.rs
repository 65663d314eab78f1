//! A long list of steps, made of numbers that look random, and the same ones at each run.
//!
//! Over two hundred steps the bag is filled and then emptied, so that its tables grow, carry and shrink again and again.
use hashbag::script::Step;
use std::alloc::{AllocError, Global};
use tests_kit::Tagged;

/// How many steps a list has.
pub const STEPS: u64 = 2000;

/// The steps are on values of the keys below this one.
pub const KEYS: u64 = 39;

/// The highest limit that a step sets.
pub const MOST: usize = 72;

// A value with this key. Which instance it is, is up to the number of the step.
fn sample(key: u64, step: u64) -> Tagged {
    Tagged { key, tag: step }
}

/// The key of a value, and which instance it is.
pub fn mark(value: &Tagged) -> (u64, u64) {
    (value.key, value.tag)
}

/// The number after this one in a sequence whose high bits look random.
pub fn next_number(number: u64) -> u64 {
    number
        .wrapping_mul(6364136223846793005)
        .wrapping_add(1442695040888963407)
}

// How many of each value but the last are to stay. The first value is there a second time, which is not read.
fn quotas(alloc: Global, amount: usize, step: u64) -> Result<Vec<(Tagged, usize)>, AllocError> {
    let mut list = Vec::new(alloc);
    for key in 1..KEYS {
        list.push((
            sample(key - 1, step),
            (key as usize).saturating_add(amount) % 5,
        ))?;
    }
    list.push((sample(0, step), 9))?;
    Ok(list)
}

// A step that is rare. All totals are far below the number that it says, if it says one.
fn rare_step(choice: u64, value: Tagged, amount: usize) -> Step<Tagged> {
    match choice % 8 {
        0 => Step::InsertMany(value, usize::MAX - amount.min(3)),
        1 => Step::EntrySet(value, usize::MAX - amount.min(3)),
        2 => Step::EntryOr(value, usize::MAX - amount.min(3)),
        3 => Step::RemoveUpTo(value, usize::MAX),
        4 => Step::Reserve(amount.saturating_mul(5)),
        5 => Step::ShrinkToFit,
        6 => Step::TakeAll(value),
        _ => Step::Limit(amount.saturating_mul(16)),
    }
}

// A step that brings values in, more often than not.
fn filling_step(choice: u64, value: Tagged, amount: usize) -> Step<Tagged> {
    match choice % 16 {
        0..=5 => Step::Insert(value),
        6..=8 => Step::InsertMany(value, amount),
        9 | 10 => Step::EntryOr(value, amount),
        11 => Step::Replace(value),
        12 => Step::EntrySet(value, amount),
        13 => Step::Count(value),
        14 => Step::Remove(value),
        _ => rare_step(choice / 16, value, amount),
    }
}

// A step that takes values out, more often than not.
fn emptying_step(choice: u64, value: Tagged, amount: usize) -> Step<Tagged> {
    match choice % 16 {
        0..=2 => Step::Remove(value),
        3..=5 => Step::RemoveUpTo(value, amount),
        6..=8 => Step::TryTake(value),
        9 | 10 => Step::TakeAll(value),
        11 => Step::Insert(value),
        12 => Step::EntrySet(value, amount),
        13 => Step::Count(value),
        14 => Step::Replace(value),
        _ => rare_step(choice / 16, value, amount),
    }
}

/// The step of this number, which is another one for each random number.
pub fn step_of(alloc: Global, number: u64, step: u64) -> Result<Step<Tagged>, AllocError> {
    let value = sample((number >> 40) % KEYS, step);
    let amount = ((number >> 30) % 4) as usize;
    let choice = number >> 50;
    Ok(match step % 200 {
        0 => Step::Limit(MOST),
        1..=109 => filling_step(choice, value, amount),
        130 => Step::Retain(quotas(alloc, amount, step)?),
        170 if choice % 2 == 0 => Step::Clear,
        199 => Step::ShrinkToFit,
        _ => emptying_step(choice, value, amount),
    })
}

/// A value that no step is on.
pub fn ballast() -> Tagged {
    sample(KEYS, 0)
}

/// What a step is on a bag that has the ballast too, so often that totals are near the end of a `usize`: it leaves the ballast, and a
/// limit is higher by it. With no ballast it is the step itself.
pub fn with_ballast(
    alloc: Global,
    step: Step<Tagged>,
    count: usize,
) -> Result<Step<Tagged>, AllocError> {
    if count == 0 {
        return Ok(step);
    }
    Ok(match step {
        Step::Limit(most) => Step::Limit(most.saturating_add(count)),
        Step::Clear => {
            let mut list = Vec::new(alloc);
            list.push((ballast(), usize::MAX))?;
            Step::Retain(list)
        }
        Step::Retain(mut list) => {
            list.push((ballast(), usize::MAX))?;
            Step::Retain(list)
        }
        step => step,
    })
}
