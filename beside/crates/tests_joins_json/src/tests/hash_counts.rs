//! How often a call on two bags hashes.
use crate::tests::joins::{bags_of, quarters};
use hashbag::HashBag;
use hashbag::script::joins_of;
use std::alloc::Global;
use std::test::Fail;
use tests_kit::rows_of;
use tests_kit::states::CountingState;
use tests_kit::texts::is_text;

// The counts of two bags, a call on both, and how often the state of each hashes. The word `carrying` means the counts of a bag in the
// middle of a carry.
const CALLS_ON_TWO: &str = "
    1:1 2:5 3:2 | 2:1 4:1 5:3 6:1 | outer_join | 4 3
    1:1 2:5 3:2 | 2:1 4:1 5:3 6:1 | difference | 0 3
    1:1 2:5 3:2 | 2:1 4:1 5:3 6:1 | signed_difference | 4 3
    2:1 4:1 5:3 6:1 | 1:1 2:5 3:2 | not_in | 0 4
    1:1 2:5 3:2 | 2:1 4:1 5:3 6:1 | joins_of | 4 3
    1:1 2:5 3:2 | 2:5 3:2 1:1 | equal | 0 3
    1:1 | 1:2 | equal | 0 0
    1:1 | 2:1 | equal | 0 1
    | | equal | 0 0
    carrying | 20:1 26:1 | outer_join | 2 25
    carrying | 20:1 26:1 | difference | 0 25
    carrying | 20:1 26:1 | signed_difference | 2 25
    carrying | 20:1 26:1 | not_in | 0 25
    carrying | 20:1 26:1 | joins_of | 2 25
    20:1 26:1 | carrying | outer_join | 25 2
    20:1 26:1 | carrying | difference | 0 2
    20:1 26:1 | carrying | signed_difference | 25 2
    20:1 26:1 | carrying | not_in | 0 2
    carrying | carrying | equal | 0 25";

// The counts of a bag in the middle of a carry: 17 to 24 wait in the older table.
const CARRYING: &str = "1..=25:1";

type CountingBag = HashBag<u64, CountingState>;

// What a call returns doesn't matter here.
fn done<T: Drop>(_answer: T) -> Result<(), Fail> {
    Ok(())
}

fn outer_join(a: &CountingBag, b: &CountingBag) {
    for _ in a.outer_join(b) {}
}

fn difference(a: &CountingBag, b: &CountingBag) {
    for _ in a.difference(b) {}
}

fn signed_difference(a: &CountingBag, b: &CountingBag) {
    for _ in a.signed_difference(b) {}
}

fn not_in(a: &CountingBag, b: &CountingBag) {
    for _ in a.not_in(b) {}
}

// Makes a call on two bags.
fn make_call_on_two(
    alloc: Global,
    a: &CountingBag,
    b: &CountingBag,
    call: &str,
) -> Result<(), Fail> {
    match call {
        "outer_join" => done(outer_join(a, b)),
        "difference" => done(difference(a, b)),
        "signed_difference" => done(signed_difference(a, b)),
        "not_in" => done(not_in(a, b)),
        "joins_of" => done(joins_of(alloc, a, b)?),
        "equal" => done(*a == *b),
        _ => Err(Fail::new(format_args!("no such call: {call}"))),
    }
}

// How often each state hashed so far.
fn hashed_by(a: &CountingBag, b: &CountingBag) -> (u64, u64) {
    (a.hasher().hashed(), b.hasher().hashed())
}

// How often each state hashed since.
fn hashed_since(
    alloc: Global,
    start: (u64, u64),
    a: &CountingBag,
    b: &CountingBag,
) -> Result<String, Fail> {
    let end = hashed_by(a, b);
    let (first, second) = (end.0.saturating_sub(start.0), end.1.saturating_sub(start.1));
    Ok(format!(in alloc; "{first} {second}")?)
}

// Returns the counts in a row.
fn counts_of(text: &str) -> &str {
    if text == "carrying" { CARRYING } else { text }
}

// Makes the call of a row on two bags.
fn both_hash_so_often(alloc: Global, row: &str) -> Result<(), Fail> {
    let (first, second, call, wanted) = quarters(row)?;
    let (a, b) = bags_of::<CountingState, CountingState>(
        alloc,
        counts_of(first),
        counts_of(second),
    )?;
    let start = hashed_by(&a, &b);
    make_call_on_two(alloc, &a, &b, call)?;
    let got = hashed_since(alloc, start, &a, &b)?;
    is_text(got.as_str(), wanted)
}

#[test]
fn calls_on_two_hash_so_often(rt: HostRuntime) -> Result<(), Fail> {
    for row in rows_of(rt.alloc(), CALLS_ON_TWO)? {
        row.tested(both_hash_so_often(rt.alloc(), row.text))?;
    }
    Ok(())
}
