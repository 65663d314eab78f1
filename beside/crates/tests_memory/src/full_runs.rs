//! Runs of steps on bags whose values count their drops, and that have no room for the second step.
use crate::checks::{Refusals, Wrong, check};
use crate::counted::{Counted, Values};
use crate::counts::tables_of;
use crate::full::{Bag, filled, state_of};
use hashbag::script::{Step, run, run_pair};
use std::alloc::Global;

// Two steps. `None` if their list can't be allocated.
fn two_insertions<'a>(
    alloc: Global,
    values: &'a Values,
    refusals: &mut Refusals,
) -> Option<Vec<Step<Counted<'a>>>> {
    let steps = [
        Step::Insert(values.value(9)),
        Step::Insert(values.value(13)),
    ];
    match Vec::from_array(alloc, steps) {
        Ok(steps) => Some(steps),
        Err(_) => {
            refusals.count();
            None
        }
    }
}

/// A run of two steps on a bag with no room, of which the second makes an allocation. If the replies have no room, neither is done.
pub fn run_without_room(
    alloc: Global,
    values: &Values,
    refusals: &mut Refusals,
) -> Result<(), Wrong> {
    let Some(mut bag) = filled(alloc, values, 12, refusals)? else {
        return Ok(());
    };
    let Some(steps) = two_insertions(alloc, values, refusals) else {
        return Ok(());
    };
    let mut replies = Vec::new(alloc);
    let done = refusals.is_done(run(&mut bag, steps, &mut replies))?;
    is_after(&bag, values, replies.len(), "a run without room")?;
    check(
        done == (replies.len() == 2),
        "a run without room: its replies",
    )
}

// Checks that the bag of such a run has what this number of replies says.
fn is_after<'a>(
    bag: &Bag<'a>,
    values: &'a Values,
    replies: usize,
    wrong: &'static str,
) -> Result<(), Wrong> {
    let (wanted, slots) = match replies {
        0 => ((1, 0, 12), (16, 0, 0)),
        1 => ((2, 0, 13), (16, 0, 0)),
        _ => ((2, 1, 14), (32, 0, 11)),
    };
    check(
        (state_of(bag, values), tables_of(bag)) == (wanted, slots),
        wrong,
    )
}

/// Such runs on two bags.
pub fn runs_without_room(
    alloc: Global,
    values: &Values,
    refusals: &mut Refusals,
) -> Result<(), Wrong> {
    let Some(a) = filled(alloc, values, 12, refusals)? else {
        return Ok(());
    };
    let Some(b) = filled(alloc, values, 12, refusals)? else {
        return Ok(());
    };
    let Some(first) = two_insertions(alloc, values, refusals) else {
        return Ok(());
    };
    let Some(second) = two_insertions(alloc, values, refusals) else {
        return Ok(());
    };
    run_both(alloc, values, (a, first), (b, second), refusals)
}

// Checks that each bag is as its replies say.
fn run_both<'a>(
    alloc: Global,
    values: &'a Values,
    first: (Bag<'a>, Vec<Step<Counted<'a>>>),
    second: (Bag<'a>, Vec<Step<Counted<'a>>>),
    refusals: &mut Refusals,
) -> Result<(), Wrong> {
    let ((mut a, steps_a), (mut b, steps_b)) = (first, second);
    let (mut in_a, mut in_b) = (Vec::new(alloc), Vec::new(alloc));
    let answer = run_pair(&mut a, &mut b, steps_a, steps_b, &mut in_a, &mut in_b);
    let done = refusals.is_done(answer)?;
    are_after((&a, &b), values, (in_a.len(), in_b.len()), done)
}

// Checks that two bags are as these numbers of replies say.
fn are_after<'a>(
    bags: (&Bag<'a>, &Bag<'a>),
    values: &'a Values,
    replies: (usize, usize),
    done: bool,
) -> Result<(), Wrong> {
    is_after(bags.0, values, replies.0, "two runs: the first bag")?;
    is_after(bags.1, values, replies.1, "two runs: the second bag")?;
    are_in_turn(replies, done)
}

// How many replies two runs have: none if the replies had no room, and none of the second if the first was stopped.
fn are_in_turn(replies: (usize, usize), is_done: bool) -> Result<(), Wrong> {
    if is_done {
        return check(replies == (2, 2), "two runs: the replies");
    }
    let stopped = [(0, 0), (1, 0), (2, 1)];
    check(
        stopped.contains(&replies),
        "two runs: those before a refusal",
    )
}
