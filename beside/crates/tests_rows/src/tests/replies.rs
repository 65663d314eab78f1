//! Replies of whole runs, with the results found by hand.
use hashbag::script::{Reply, Step, run};
use hashbag::{FixedState, HashBag};
use std::alloc::Global;
use std::hash::BuildHasher;
use std::process::Abort;
use std::test::Fail;
use tests_kit::texts::{count, counts, debug_of, halves, is_text, number};
use tests_kit::{IdentityState, OneState, ParityState, Row, rows_of};

// The rows of a run, with its replies. `retain` keeps at most the number of the first pair with that value, and none without
// a pair.
const RUN_ROWS: &str = "
    insert_many 0:5 = Count(0)
    insert_many 1:4 = Count(0)
    insert_many 2:3 = Count(0)
    insert_many 3:2 = Count(0)
    insert_many 4:1 = Count(0)
    retain 0:0 1:1 2:2 3:3 4:4 = Done
    count 0 = Count(0)
    count 1 = Count(1)
    count 2 = Count(2)
    count 3 = Count(2)
    count 4 = Count(1)
    insert_many 1:3 = Count(1)
    retain 1:2 1:3 2:9 4:0 = Done
    count 1 = Count(2)
    count 2 = Count(2)
    count 3 = Count(0)
    count 4 = Count(0)
    retain none = Done
    count 1 = Count(0)";

// The rows of a run at the end of a `usize`, which leaves one occurrence.
const FULL_ROWS: &str = "
    insert_many 1:18446744073709551615 = Count(0)
    or 2:0 = Count(0)
    or 2:1 = TooMany
    insert_many 1:0 = Count(18446744073709551615)
    set 1:18446744073709551615 = Done
    replace 2 = TooMany
    replace 1 = Count(18446744073709551615)";

// The step with a value and a number, as `5:2`.
fn step_with_number(verb: &str, pair: &str) -> Result<Step<u64>, Fail> {
    let (value, n) = halves(pair, ":")?;
    let (value, n) = (number(value)?, count(n)?);
    match verb {
        "insert_many" => Ok(Step::InsertMany(value, n)),
        "or" => Ok(Step::EntryOr(value, n)),
        _ => Ok(Step::EntrySet(value, n)),
    }
}

// The step of a call.
fn step_of(alloc: Global, call: &str) -> Result<Step<u64>, Fail> {
    if call == "retain none" {
        return Ok(Step::Retain(Vec::new(alloc)));
    }
    let (verb, rest) = halves(call, " ")?;
    match verb {
        "insert_many" | "or" | "set" => step_with_number(verb, rest),
        "replace" => Ok(Step::Replace(number(rest)?)),
        "retain" => Ok(Step::Retain(counts(alloc, rest)?)),
        "count" => Ok(Step::Count(number(rest)?)),
        _ => Err(Fail::new(format_args!("no such step: {verb}"))),
    }
}

// Adds the step of a row.
fn push_step(alloc: Global, steps: &mut Vec<Step<u64>>, row: &str) -> Result<(), Fail> {
    let (call, _) = halves(row, " = ")?;
    steps.push(step_of(alloc, call)?)?;
    Ok(())
}

fn steps_of(alloc: Global, rows: &[Row]) -> Result<Vec<Step<u64>>, Fail> {
    let mut steps = Vec::new(alloc);
    for row in rows {
        row.tested(push_step(alloc, &mut steps, row.text))?;
    }
    Ok(steps)
}

// Compares the reply of a row.
fn is_reply(alloc: Global, reply: &Reply<u64>, row: &str) -> Result<(), Fail> {
    let (_, want) = halves(row, " = ")?;
    is_text(debug_of(alloc, reply)?.as_str(), want)
}

// What a run on a new bag replies, and the total that it leaves.
fn replies_of<S: BuildHasher + Drop>(
    alloc: Global,
    state: S,
    steps: Vec<Step<u64>>,
) -> Result<(Vec<Reply<u64>>, usize), Fail> {
    let mut bag = HashBag::with_hasher(alloc, state);
    let mut replies = Vec::new(alloc);
    run(&mut bag, steps, &mut replies)?;
    Ok((replies, bag.len()))
}

fn replies_in_a_run<S: BuildHasher + Drop>(
    rt: &impl Abort,
    alloc: Global,
    state: S,
    rows: &'static str,
    total: usize,
) -> Result<(), Fail> {
    let rows = rows_of(alloc, rows)?;
    let (replies, len) = replies_of(alloc, state, steps_of(alloc, rows.as_slice())?)?;
    assert_eq!(rt; (replies.len(), len), (rows.len(), total));
    for (row, reply) in rows.iter().zip(&replies) {
        row.tested(is_reply(alloc, reply, row.text))?;
    }
    Ok(())
}

fn replies_under<S: BuildHasher + Copy>(
    rt: &impl Abort,
    alloc: Global,
    state: S,
) -> Result<(), Fail> {
    replies_in_a_run(rt, alloc, state, RUN_ROWS, 0)?;
    replies_in_a_run(rt, alloc, state, FULL_ROWS, 1)
}

#[test]
fn replies_of_runs(rt: HostRuntime) -> Result<(), Fail> {
    replies_under(&rt, rt.alloc(), FixedState::new())?;
    replies_under(&rt, rt.alloc(), OneState)?;
    replies_under(&rt, rt.alloc(), ParityState)?;
    replies_under(&rt, rt.alloc(), IdentityState)
}
