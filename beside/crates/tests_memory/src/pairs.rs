//! Runs on two bags, and their joins.
use crate::checks::{Refusals, Wrong, check};
use crate::counts::tables_of;
use hashbag::HashBag;
use hashbag::script::{Reply, Step, joins_of, run_pair};
use std::alloc::{AllocFailed, Global};

// How many steps each bag has.
const STEPS: usize = 4;

// The steps of the two bags.
fn steps_of(
    alloc: Global,
) -> Result<(Vec<Step<u64>>, Vec<Step<u64>>), AllocFailed<[Step<u64>; STEPS]>> {
    let steps_a = [
        Step::InsertMany(5, 3),
        Step::Insert(6),
        Step::Replace(5),
        Step::Reserve(40),
    ];
    let steps_b = [
        Step::Insert(6),
        Step::InsertMany(5, 2),
        Step::Remove(6),
        Step::ShrinkToFit,
    ];
    Ok((
        Vec::from_array(alloc, steps_a)?,
        Vec::from_array(alloc, steps_b)?,
    ))
}

// The counts of 5 and 6 in each bag after each number of its steps.
const AFTER_A: [(usize, usize); 5] = [(0, 0), (3, 0), (3, 1), (1, 1), (1, 1)];

const AFTER_B: [(usize, usize); 5] = [(0, 0), (0, 1), (2, 1), (2, 0), (2, 0)];

// The slots of each bag, those that wait, and the room, after each number of its steps.
const TABLES_AFTER_A: [(usize, usize, usize); 5] = [
    (0, 0, 0),
    (16, 0, 11),
    (16, 0, 10),
    (16, 0, 10),
    (64, 0, 46),
];

const TABLES_AFTER_B: [(usize, usize, usize); 5] = [
    (0, 0, 0),
    (16, 0, 11),
    (16, 0, 10),
    (16, 0, 10),
    (16, 0, 10),
];

// Checks that the replies are the first of these, and that the bag has the counts that go with as many.
fn is_at(
    bag: &HashBag<u64>,
    replies: &[Reply<u64>],
    wanted: &[Reply<u64>],
    after: &[(usize, usize); 5],
    tables: &[(usize, usize, usize); 5],
    wrong: &'static str,
) -> Result<(), Wrong> {
    if replies.len() >= after.len() {
        return Err(Wrong(wrong));
    }
    check(tables_of(bag) == tables[replies.len()], wrong)?;
    let (five, six) = after[replies.len()];
    check((bag.contains(&5), bag.contains(&6)) == (five, six), wrong)?;
    check(bag.len() == five.saturating_add(six), wrong)?;
    for (reply, want) in replies.iter().zip(wanted) {
        check(*reply == *want, wrong)?;
    }
    Ok(())
}

// Checks that each bag is as its replies say. The second has replies only once the first has all.
fn are_at(
    a: &HashBag<u64>,
    b: &HashBag<u64>,
    replies_a: &[Reply<u64>],
    replies_b: &[Reply<u64>],
) -> Result<(), Wrong> {
    let wanted = [
        Reply::Count(0),
        Reply::Count(0),
        Reply::Count(3),
        Reply::Done,
    ];
    is_at(
        a,
        replies_a,
        &wanted,
        &AFTER_A,
        &TABLES_AFTER_A,
        "run_pair: the first bag",
    )?;
    let wanted = [
        Reply::Count(0),
        Reply::Count(0),
        Reply::Count(1),
        Reply::Done,
    ];
    is_at(
        b,
        replies_b,
        &wanted,
        &AFTER_B,
        &TABLES_AFTER_B,
        "run_pair: the second bag",
    )?;
    check(
        replies_b.is_empty() || replies_a.len() == STEPS,
        "run_pair: the second bag before the first was done",
    )
}

// Checks the joins if there are any, and that both bags are what they were.
fn joins(
    alloc: Global,
    a: &HashBag<u64>,
    b: &HashBag<u64>,
    refusals: &mut Refusals,
) -> Result<(), Wrong> {
    if let Some(joins) = refusals.answer(joins_of(alloc, a, b))? {
        check(joins.outer.len() == 2, "joins_of: the outer join")?;
        check(joins.difference.len() == 1, "joins_of: the difference")?;
        check(joins.signed.len() == 2, "joins_of: the signed difference")?;
        check(joins.not_in.len() == 1, "joins_of: what is not in")?;
    }
    check(
        (a.contains(&5), a.contains(&6)) == (1, 1),
        "joins_of: the first bag",
    )?;
    check(
        (b.contains(&5), b.contains(&6)) == (2, 0),
        "joins_of: the second bag",
    )?;
    let tables = (tables_of(a), tables_of(b));
    check(
        tables == (TABLES_AFTER_A[4], TABLES_AFTER_B[4]),
        "joins_of: the slots",
    )
}

// The two runs, and whether they were done.
fn runs(
    alloc: Global,
    a: &mut HashBag<u64>,
    b: &mut HashBag<u64>,
    steps: (Vec<Step<u64>>, Vec<Step<u64>>),
    refusals: &mut Refusals,
) -> Result<bool, Wrong> {
    let (steps_a, steps_b) = steps;
    let mut replies_a = Vec::new(alloc);
    let mut replies_b = Vec::new(alloc);
    let done = run_pair(a, b, steps_a, steps_b, &mut replies_a, &mut replies_b);
    let done = refusals.is_done(done)?;
    are_at(a, b, replies_a.as_slice(), replies_b.as_slice())?;
    check(
        !done || replies_b.len() == STEPS,
        "run_pair: the number of replies",
    )?;
    Ok(done)
}

/// Runs on two bags, and their joins.
pub fn pairs_of_runs(alloc: Global, refusals: &mut Refusals) -> Result<(), Wrong> {
    let Ok(steps) = steps_of(alloc) else {
        refusals.count();
        return Ok(());
    };
    let mut a: HashBag<u64> = HashBag::new(alloc);
    let mut b: HashBag<u64> = HashBag::new(alloc);
    if runs(alloc, &mut a, &mut b, steps, refusals)? {
        joins(alloc, &a, &b, refusals)?;
    }
    Ok(())
}
