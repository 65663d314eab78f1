//! Walks over a bag in the middle of a carry, dropped after each number of items. The bag is asked again after each.
use crate::tests::walks::{has_left, next_of};
use hashbag::{BagError, FixedState, HashBag};
use std::alloc::Global;
use std::fmt::Debug;
use std::hash::BuildHasher;
use std::process::Abort;
use std::test::Fail;
use tests_kit::calls::{insert, make_calls};
use tests_kit::texts::{debug_of, is_text_of};
use tests_kit::{IdentityState, OneState, ParityState};

// This many distinct values leave 16 slots that wait.
const VALUES: usize = 25;

// The values that the walks give, in ascending order.
const ALL: &str =
    "[1, 2, 3, 4, 5, 6, 7, 8, 9, 10, 11, 12, 13, 14, 15, 16, 17, 18, 19, 20, 21, 22, 23, 24, 25]";

// What the calls of a bag return that is as it was before a walk.
const AS_BEFORE: &str = "
    counts [0..=25] = [0, 1, 1, 1, 1, 1, 1, 1, 1, 1, 1, 1, 1, 1, 1, 1, 1, 1, 1, 1, 1, 1, 1, 1, 1, 1]
    len = 25
    set_len = 25
    tables = (64, 16, 23)
    insert 100 = 0
    tables = (64, 0, 22)
    contains 100 = 1
    contains 25 = 1";

// What the calls of a bag return that was drained.
const DRAINED: &str = "
    counts [0..=25] = [0, 0, 0, 0, 0, 0, 0, 0, 0, 0, 0, 0, 0, 0, 0, 0, 0, 0, 0, 0, 0, 0, 0, 0, 0, 0]
    is_empty = true
    set_len = 0
    waiting = 0
    insert 100 = 0
    contains 100 = 1";

// The numbers from 1 to 25, each inserted once.
fn numbers<S: BuildHasher + Drop>(alloc: Global, state: S) -> Result<HashBag<u64, S>, BagError> {
    let mut bag = HashBag::with_hasher(alloc, state);
    for value in 1..=25 {
        insert(&mut bag, value)?;
    }
    Ok(bag)
}

// A bag in the middle of a carry.
fn carrying<S: BuildHasher + Drop>(
    rt: &impl Abort,
    alloc: Global,
    state: S,
) -> Result<HashBag<u64, S>, Fail> {
    let bag = numbers(alloc, state)?;
    assert_eq!(rt; (bag.slots(), bag.waiting()), (64, 16));
    Ok(bag)
}

fn are_all<T: Ord + Debug + Copy>(alloc: Global, walk: &str, got: Vec<T>) -> Result<(), Fail> {
    let mut got = got;
    got.sort_unstable();
    is_text_of(walk, debug_of(alloc, &got)?.as_str(), ALL)
}

// This many items of a walk.
fn first_items<I: ExactSizeIterator>(
    rt: &impl Abort,
    alloc: Global,
    name: &str,
    walk: &mut I,
    taken: usize,
) -> Result<Vec<I::Item>, Fail>
where
    I::Item: Drop,
    requires any { (state : _) → I.can_next state }
{
    let mut got = Vec::new(alloc);
    for _ in 0..taken {
        let Some(item) = next_of(walk) else {
            return Err(Fail::new(format_args!("{name} ends early")));
        };
        got.push(item)?;
    }
    has_left(rt, walk, VALUES.saturating_sub(taken));
    Ok(got)
}

// This many items, and then the others, of a clone.
fn items<S: BuildHasher + Drop>(
    rt: &impl Abort,
    alloc: Global,
    bag: &HashBag<u64, S>,
    taken: usize,
) -> Result<(), Fail> {
    let mut walk = bag.iter();
    let mut got = first_items(rt, alloc, "iter", &mut walk, taken)?;
    for value in walk.clone()? {
        got.push(value)?;
    }
    are_all(alloc, "iter", got)
}

// This many values, and then the others, of a clone.
fn values<S: BuildHasher + Drop>(
    rt: &impl Abort,
    alloc: Global,
    bag: &HashBag<u64, S>,
    taken: usize,
) -> Result<(), Fail> {
    let mut walk = bag.set_iter();
    let mut got = Vec::new(alloc);
    for (value, _) in first_items(rt, alloc, "set_iter", &mut walk, taken)? {
        got.push(*value)?;
    }
    for (value, _) in walk.clone()? {
        got.push(*value)?;
    }
    are_all(alloc, "set_iter", got)
}

// Returns the sum of the first values of a walk that owns them.
fn sum_of_first<I: ExactSizeIterator<Item = (u64, usize)> + Drop>(
    rt: &impl Abort,
    name: &str,
    walk: I,
    taken: usize,
) -> u64
where
    requires any { (state : _) → I.can_next state }
{
    let mut sum = 0u64;
    let mut walk = walk;
    for _ in 0..taken {
        let (value, count) = next_of(&mut walk).unwrap_or((0, 0));
        sum = sum.saturating_add(value);
        assert_eq!(rt; count, 1, "of {value} by {name}");
    }
    has_left(rt, &walk, VALUES.saturating_sub(taken));
    sum
}

fn drained<S: BuildHasher + Drop>(rt: &impl Abort, bag: &mut HashBag<u64, S>, taken: usize) -> u64 {
    sum_of_first(rt, "drain", bag.drain(), taken)
}

fn moved<S: BuildHasher + Drop>(rt: &impl Abort, bag: HashBag<u64, S>, taken: usize) -> u64 {
    sum_of_first(rt, "into_iter", bag.into_iter(), taken)
}

// The sum of n different numbers from 1 on is at least that of the least ones, and all together have the sum 325.
fn is_sum(rt: &impl Abort, sum: u64, taken: usize) {
    let least = (taken as u64).saturating_mul((taken as u64).saturating_add(1)) / 2;
    assert!(rt; sum >= least && sum <= 325, "{sum} after {taken}");
    assert!(rt; taken < VALUES || sum == 325, "{sum} in all");
}

// Checks that a walk over the occurrences leaves the bag as it was.
fn items_after<S: BuildHasher + Default + Copy>(
    rt: &impl Abort,
    alloc: Global,
    state: S,
    taken: usize,
) -> Result<(), Fail> {
    let mut bag = carrying(rt, alloc, state)?;
    items(rt, alloc, &bag, taken)?;
    make_calls(alloc, &mut bag, AS_BEFORE)
}

// Checks that a walk over the values leaves the bag as it was.
fn values_after<S: BuildHasher + Default + Copy>(
    rt: &impl Abort,
    alloc: Global,
    state: S,
    taken: usize,
) -> Result<(), Fail> {
    let mut bag = carrying(rt, alloc, state)?;
    values(rt, alloc, &bag, taken)?;
    make_calls(alloc, &mut bag, AS_BEFORE)
}

// Checks that a drain empties the bag.
fn drain_after<S: BuildHasher + Default + Copy>(
    rt: &impl Abort,
    alloc: Global,
    state: S,
    taken: usize,
) -> Result<(), Fail> {
    let mut bag = carrying(rt, alloc, state)?;
    is_sum(rt, drained(rt, &mut bag, taken), taken);
    make_calls(alloc, &mut bag, DRAINED)
}

// Each walk on a bag of its own.
fn walks_after<S: BuildHasher + Default + Copy>(
    rt: &impl Abort,
    alloc: Global,
    state: S,
    taken: usize,
) -> Result<(), Fail> {
    items_after(rt, alloc, state, taken)?;
    values_after(rt, alloc, state, taken)?;
    drain_after(rt, alloc, state, taken)?;
    is_sum(rt, moved(rt, carrying(rt, alloc, state)?, taken), taken);
    Ok(())
}

fn walks_under<S: BuildHasher + Default + Copy>(
    rt: &impl Abort,
    alloc: Global,
    state: S,
) -> Result<(), Fail> {
    for taken in 0..=VALUES {
        walks_after(rt, alloc, state, taken)?;
    }
    Ok(())
}

#[test]
fn carry_of_fixed_state(rt: HostRuntime) -> Result<(), Fail> {
    walks_under(&rt, rt.alloc(), FixedState::new())
}

#[test]
fn carry_of_one_state(rt: HostRuntime) -> Result<(), Fail> {
    walks_under(&rt, rt.alloc(), OneState)
}

#[test]
fn carry_of_parity_state(rt: HostRuntime) -> Result<(), Fail> {
    walks_under(&rt, rt.alloc(), ParityState)
}

#[test]
fn carry_of_identity_state(rt: HostRuntime) -> Result<(), Fail> {
    walks_under(&rt, rt.alloc(), IdentityState)
}
