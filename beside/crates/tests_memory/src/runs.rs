//! A run with a step of each kind.
use crate::checks::{Refusals, Wrong, check};
use crate::counts::{Counts, has_counts, tables_of};
use hashbag::HashBag;
use hashbag::script::{Reply, Step, run};
use std::alloc::{AllocError, Global};

// A step of each kind, and more insertions.
fn steps_of(alloc: Global) -> Result<Vec<Step<u64>>, AllocError> {
    let kept = vec![in alloc; (5, 4), (7, 9)]?;
    Ok(vec![in alloc;
        Step::InsertMany(5, 3),
        Step::Insert(6),
        Step::Replace(5),
        Step::Reserve(40),
        Step::Remove(6),
        Step::ShrinkToFit,
        Step::EntryOr(6, 4),
        Step::RemoveUpTo(6, 1),
        Step::InsertMany(7, 2),
        Step::TryTake(7),
        Step::EntrySet(5, 6),
        Step::Count(5),
        Step::Retain(kept),
        Step::TakeAll(7),
        Step::Clear,
        Step::InsertMany(6, 5),
    ]?)
}

// The counts of 5, 6 and 7 after each number of these steps.
const AFTER: [Counts; 17] = [
    (0, 0, 0),
    (3, 0, 0),
    (3, 1, 0),
    (1, 1, 0),
    (1, 1, 0),
    (1, 0, 0),
    (1, 0, 0),
    (1, 4, 0),
    (1, 3, 0),
    (1, 3, 2),
    (1, 3, 1),
    (6, 3, 1),
    (6, 3, 1),
    (4, 0, 1),
    (4, 0, 0),
    (0, 0, 0),
    (0, 5, 0),
];

// The slots, those that wait, and the room after each number of these steps.
const TABLES_AFTER: [(usize, usize, usize); 17] = [
    (0, 0, 0),
    (16, 0, 11),
    (16, 0, 10),
    (16, 0, 10),
    (64, 0, 46),
    (64, 0, 46),
    (16, 0, 11),
    (16, 0, 10),
    (16, 0, 10),
    (16, 0, 9),
    (16, 0, 9),
    (16, 0, 9),
    (16, 0, 9),
    (16, 0, 9),
    (16, 0, 9),
    (16, 0, 12),
    (16, 0, 11),
];

// Checks that the bag has the counts and the slots that the first `number` steps leave.
fn is_after(bag: &HashBag<u64>, number: usize) -> Result<(), Wrong> {
    if number >= AFTER.len() {
        return Err(Wrong("run: more replies than steps"));
    }
    has_counts(bag, AFTER[number], "run: the counts")?;
    check(tables_of(bag) == TABLES_AFTER[number], "run: the slots")
}

// Checks that a run leaves what the steps with replies leave.
fn runs_of(alloc: Global, steps: Vec<Step<u64>>, refusals: &mut Refusals) -> Result<(), Wrong> {
    let mut bag: HashBag<u64> = HashBag::new(alloc);
    let mut replies: Vec<Reply<u64>> = Vec::new(alloc);
    let answer = run(&mut bag, steps, &mut replies);
    let number = replies.len();
    let done = refusals.is_done(answer)?;
    is_after(&bag, number)?;
    check(!done || number == 16, "run: the number of replies")
}

/// A run with a step of each kind. If it is stopped, the steps before are done.
pub fn runs(alloc: Global, refusals: &mut Refusals) -> Result<(), Wrong> {
    match steps_of(alloc) {
        Ok(steps) => runs_of(alloc, steps, refusals),
        Err(_) => {
            refusals.count();
            Ok(())
        }
    }
}
