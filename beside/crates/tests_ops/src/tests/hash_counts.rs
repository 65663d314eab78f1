//! How often each call hashes a value.
use crate::tests::bags::{bag_of, thirds};
use crate::tests::calls::{answer, answer_beside};
use hashbag::HashBag;
use std::alloc::Global;
use std::test::Fail;
use tests_kit::rows_of;
use tests_kit::states::CountingState;
use tests_kit::texts::{debug_of, halves, is_text};

// A call that uses the second bag up, the two bags, and how often the first bag's state hashes in it.
const SUMS: &str = "
    merge | 5:2 6:1 | | 0
    merge | | 5:2 6:1 | 2
    merge | 5:2 6:1 | 5:3 7:1 | 2
    merge | 1..=12 | 1..=12 | 24
    merge | 1..=5 | 1..=8 | 8
    merge | 1..=5 | 6..=20 | 28
    merge | 1..=12 | 13..=24 | 25
    keep_most | 5:2 6:1 | 5:3 7:1 | 4
    keep_most | 5:2 6:1 | 5:1 7:1 | 3
    keep_most | 5:2 6:1 | 5:1 6:1 | 2
    keep_most | 1..=12 | 2..=13 | 26";

// A call that only looks at the second bag, the two bags, and how often each bag's state hashes in it. A copy has a state of its own.
const PARTS: &str = "
    merge_ref | 5:2 6:1 | 5:3 7:1 | 2 0
    keep_common | 5:2 6:1 7:1 | 5:1 | 0 3
    keep_common | | 5:1 | 0 0
    take_away | 5:2 6:1 7:1 | 5:1 | 1 0
    take_away | 1..=12 | 3:1 13:1 | 2 0
    take_away | 3:1 13:1 | 1..=12 | 0 2
    take_away | 5:2 6:1 | 5:1 7:1 | 0 2
    take_away | 5:2 6:1 | | 0 0
    contains_all | 5:3 6:1 7:1 | 5:1 6:1 | 2 0
    contains_all | | 5:1 6:1 7:1 | 1 0
    contains_all | 5:1 | | 0 0
    is_disjoint | 5:1 | 6:1 7:1 | 0 1
    is_disjoint | 6:1 7:1 | 5:1 | 1 0
    is_disjoint | 5:1 6:1 | 7:1 8:1 | 0 2
    is_disjoint | 5:1 6:1 | 5:1 6:1 7:1 | 0 1";

type CountingBag = HashBag<u64, CountingState>;

// How often the state of a bag hashed so far.
fn hashed(bag: &CountingBag) -> u64 {
    bag.hasher().hashed()
}

// How often the first bag's state hashes in a call.
fn hashed_in_sum(
    alloc: Global,
    call: &str,
    a: &mut CountingBag,
    b: CountingBag,
) -> Result<String, Fail> {
    let before = hashed(a);
    answer(alloc, call, a, b)?;
    debug_of(alloc, &hashed(a).saturating_sub(before))
}

// How often each bag's state hashes in a call.
fn hashed_in_part(
    alloc: Global,
    call: &str,
    a: &mut CountingBag,
    b: &CountingBag,
) -> Result<String, Fail> {
    let (before, before_second) = (hashed(a), hashed(b));
    answer_beside(alloc, call, a, b)?;
    let by_first = hashed(a).saturating_sub(before);
    let by_second = hashed(b).saturating_sub(before_second);
    Ok(format!(in alloc; "{by_first} {by_second}")?)
}

fn sum_is_hashed(alloc: Global, row: &str) -> Result<(), Fail> {
    let (call, first, rest) = thirds(row)?;
    let (second, wanted) = halves(rest, "|")?;
    let mut a: CountingBag = bag_of(alloc, first)?;
    let got = hashed_in_sum(alloc, call, &mut a, bag_of(alloc, second)?)?;
    is_text(got.as_str(), wanted)
}

fn part_is_hashed(alloc: Global, row: &str) -> Result<(), Fail> {
    let (call, first, rest) = thirds(row)?;
    let (second, wanted) = halves(rest, "|")?;
    let mut a: CountingBag = bag_of(alloc, first)?;
    let b: CountingBag = bag_of(alloc, second)?;
    let got = hashed_in_part(alloc, call, &mut a, &b)?;
    is_text(got.as_str(), wanted)
}

#[test]
fn hashes_of_each_call(rt: HostRuntime) -> Result<(), Fail> {
    for row in rows_of(rt.alloc(), SUMS)? {
        row.tested(sum_is_hashed(rt.alloc(), row.text))?;
    }
    for row in rows_of(rt.alloc(), PARTS)? {
        row.tested(part_is_hashed(rt.alloc(), row.text))?;
    }
    Ok(())
}
