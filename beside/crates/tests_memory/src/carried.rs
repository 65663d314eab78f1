//! Bags in the middle of a carry: trees, joins and runs of two.
use crate::checks::{Refusals, Wrong, check};
use crate::counts::tables_of;
use hashbag::HashBag;
use hashbag::script::{Reply, Step, joins_of, run, run_pair};
use serde_json::Value;
use std::alloc::Global;
use tests_kit::OneState;

// A bag of numbers whose hashes are all alike.
type Bag = HashBag<u64, OneState>;

// The slots, those that wait, and the room.
const TABLES: (usize, usize, usize) = (64, 16, 23);

// The same once there is room for 60 more.
const TABLES_WITH_ROOM: (usize, usize, usize) = (128, 0, 71);

// A bag of the values from 1 to 25, once each. `None` if one failed.
fn in_a_carry(alloc: Global, refusals: &mut Refusals) -> Result<Option<Bag>, Wrong> {
    let mut bag = HashBag::with_hasher(alloc, OneState);
    for value in 1..=25 {
        if refusals.answer(bag.insert(value))?.is_none() {
            return Ok(None);
        }
    }
    stands(&bag, TABLES, "in a carry: 25 values")?;
    Ok(Some(bag))
}

// Checks that the bag has these tables, and its 25 values once each.
fn stands(bag: &Bag, tables: (usize, usize, usize), wrong: &'static str) -> Result<(), Wrong> {
    check(tables_of(bag) == tables, wrong)?;
    check((bag.len(), bag.set_len()) == (25, 25), wrong)?;
    for value in 1..=25 {
        check(bag.contains(&value) == 1, wrong)?;
    }
    Ok(())
}

/// Checks that the tree is written, or an allocation failed, and that the bag stays as it is.
pub fn written(alloc: Global, refusals: &mut Refusals) -> Result<(), Wrong> {
    let Some(bag) = in_a_carry(alloc, refusals)? else {
        return Ok(());
    };
    if let Some(tree) = refusals.answer(bag.to_value(alloc))? {
        check(
            tree.as_array().map(Vec::len) == Some(25),
            "in a carry: the tree's pairs",
        )?;
    }
    stands(&bag, TABLES, "in a carry: to_value")
}

// Checks that the joins with an empty bag are collected, or an allocation failed.
fn joined_with<'a>(
    alloc: Global,
    bag: &'a Bag,
    empty: &'a Bag,
    refusals: &mut Refusals,
) -> Result<(), Wrong> {
    let Some(joins) = refusals.answer(joins_of(alloc, bag, empty))? else {
        return Ok(());
    };
    let lengths = [
        joins.outer.len(),
        joins.difference.len(),
        joins.signed.len(),
        joins.not_in.len(),
    ];
    check(lengths == [25, 25, 25, 25], "in a carry: a join")
}

/// Checks that the joins with an empty bag are collected, or an allocation failed, and that the bag stays as it is.
pub fn joined(alloc: Global, refusals: &mut Refusals) -> Result<(), Wrong> {
    let Some(bag) = in_a_carry(alloc, refusals)? else {
        return Ok(());
    };
    let empty: Bag = HashBag::with_hasher(alloc, OneState);
    joined_with(alloc, &bag, &empty, refusals)?;
    stands(&bag, TABLES, "in a carry: joins_of")
}

// The step of each bag. `None` if its list can't be allocated.
fn steps(alloc: Global, refusals: &mut Refusals) -> Option<Vec<Step<u64>>> {
    match Vec::from_array(alloc, [Step::Reserve(60)]) {
        Ok(steps) => Some(steps),
        Err(_) => {
            refusals.count();
            None
        }
    }
}

// The tables that a bag has if these are its replies.
fn tables_after(replies: &[Reply<u64>]) -> (usize, usize, usize) {
    if replies.is_empty() {
        TABLES
    } else {
        TABLES_WITH_ROOM
    }
}

/// Reserves room in a bag by a run of its own. Checks that if its step has no reply, since an allocation failed, the bag stays as it is.
pub fn run_alone(alloc: Global, refusals: &mut Refusals) -> Result<(), Wrong> {
    let Some(mut bag) = in_a_carry(alloc, refusals)? else {
        return Ok(());
    };
    let Some(steps) = steps(alloc, refusals) else {
        return Ok(());
    };
    let mut replies = Vec::new(alloc);
    let done = refusals.is_done(run(&mut bag, steps, &mut replies))?;
    check(
        done == !replies.is_empty(),
        "in a carry: the reply of one bag",
    )?;
    stands(
        &bag,
        tables_after(replies.as_slice()),
        "in a carry: the bag of a run",
    )
}

// Checks what two bags are after a run with these replies.
fn are_after(
    bags: (&Bag, &Bag),
    first: &[Reply<u64>],
    second: &[Reply<u64>],
    done: bool,
) -> Result<(), Wrong> {
    check(done == !second.is_empty(), "in a carry: the replies")?;
    stands(
        bags.0,
        tables_after(first),
        "in a carry: the first bag of a run",
    )?;
    stands(
        bags.1,
        tables_after(second),
        "in a carry: the second bag of a run",
    )
}

// Runs a step on each of two bags.
fn run_on(
    alloc: Global,
    a: &mut Bag,
    b: &mut Bag,
    steps: (Vec<Step<u64>>, Vec<Step<u64>>),
    refusals: &mut Refusals,
) -> Result<(), Wrong> {
    let mut first = Vec::new(alloc);
    let mut second = Vec::new(alloc);
    let done = run_pair(a, b, steps.0, steps.1, &mut first, &mut second);
    let done = refusals.is_done(done)?;
    are_after((&*a, &*b), first.as_slice(), second.as_slice(), done)
}

// Makes the step of each of two bags, and runs them.
fn run_on_both(
    alloc: Global,
    a: &mut Bag,
    b: &mut Bag,
    refusals: &mut Refusals,
) -> Result<(), Wrong> {
    let Some(first) = steps(alloc, refusals) else {
        return Ok(());
    };
    match steps(alloc, refusals) {
        Some(second) => run_on(alloc, a, b, (first, second), refusals),
        None => Ok(()),
    }
}

/// Reserves room in each of two bags by a run. Checks that a bag whose step has no reply, since an allocation failed, stays as it is.
pub fn runs(alloc: Global, refusals: &mut Refusals) -> Result<(), Wrong> {
    let Some(mut a) = in_a_carry(alloc, refusals)? else {
        return Ok(());
    };
    match in_a_carry(alloc, refusals)? {
        Some(mut b) => run_on_both(alloc, &mut a, &mut b, refusals),
        None => Ok(()),
    }
}
