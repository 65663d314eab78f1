//! Whole runs of steps on two bags side by side, against plain lists of occurrences.
//!
//! The replies of both are compared as `Debug` writes them, which shows the instances. After every fifty steps the totals and the
//! joins of the two bags are compared too.
use crate::tests::definitions::{Plain, joins_one_by_one, plain_joins, text_of_joins};
use crate::tests::met::{Met, state_of};
use crate::tests::steps::{MOST, STEPS, ballast, next_number, step_of, with_ballast};
use hashbag::script::{Joins, Reply, Step, joins_of, run};
use hashbag::{FixedState, HashBag};
use std::alloc::{AllocError, Global};
use std::fmt::Debug;
use std::hash::BuildHasher;
use std::test::Fail;
use tests_kit::texts::{debug_of, is_text_of};
use tests_kit::{IdentityState, OneState, ParityState, Tagged};

// How often the ballast occurs in the first bag and in the second: never, or so often in the first that its totals come to the end of a
// `usize`, and that the signed difference passes the end of an `isize`.
const BALLASTS: [(usize, usize); 2] = [(0, 0), (usize::MAX - MOST, 7)];

// A bag, and what it is compared with.
#[derive(Drop)]
struct Pair<S: BuildHasher + Drop> {
    bag: HashBag<Tagged, S>,
    plain: Plain,
}

fn new_pair<S: BuildHasher + Drop>(alloc: Global, state: S, times: usize) -> Result<Pair<S>, Fail> {
    let mut bag = HashBag::with_hasher(alloc, state);
    bag.insert_many(ballast(), times)?;
    Ok(Pair {
        bag,
        plain: Plain::new(alloc, times),
    })
}

// What the plain list replies to a step.
fn plain_reply(plain: &mut Plain, step: Step<Tagged>) -> Result<Reply<Tagged>, AllocError> {
    plain.list.apply(step)
}

// What a bag replies to a step.
fn bag_reply<S: BuildHasher + Drop>(
    alloc: Global,
    bag: &mut HashBag<Tagged, S>,
    step: Step<Tagged>,
) -> Result<Reply<Tagged>, Fail> {
    let mut steps = Vec::new(alloc);
    steps.push(step)?;
    let mut replies = Vec::new(alloc);
    run(bag, steps, &mut replies)?;
    match replies.pop() {
        Some(reply) => Ok(reply),
        None => Err(Fail::new("a step with no reply")),
    }
}

// Checks that `Debug` writes the same of two values.
fn is_same<T: Debug>(alloc: Global, place: &str, got: &T, want: &T) -> Result<(), Fail> {
    let want = debug_of(alloc, want)?;
    is_text_of(place, debug_of(alloc, got)?.as_str(), want.as_str())
}

// Does the step of this number on both sides.
fn compare_step<S: BuildHasher + Drop>(
    alloc: Global,
    place: &str,
    pair: &mut Pair<S>,
    met: &mut Met,
    number: u64,
    step: u64,
) -> Result<(), Fail> {
    let before = state_of(&pair.bag);
    let plain_step = step_of(alloc, number, step)?;
    met.count(&plain_step)?;
    let want = plain_reply(&mut pair.plain, plain_step)?;
    let bag_step = with_ballast(alloc, step_of(alloc, number, step)?, pair.plain.times)?;
    let got = bag_reply(alloc, &mut pair.bag, bag_step)?;
    met.note(before, state_of(&pair.bag), &got);
    is_same(alloc, place, &got, &want)
}

// The totals and the distinct values of both sides.
fn compare_lens<S: BuildHasher + Drop>(
    alloc: Global,
    place: &str,
    pair: &Pair<S>,
) -> Result<(), Fail> {
    let got = (pair.bag.len(), pair.bag.set_len());
    let want = (pair.plain.len(), pair.plain.set_len(alloc)?);
    is_same(alloc, place, &got, &want)
}

// Checks that the joins are these.
fn are_joins(
    alloc: Global,
    place: &str,
    joins: &Joins<'_, Tagged>,
    want: &str,
) -> Result<(), Fail> {
    is_text_of(place, text_of_joins(alloc, joins)?.as_str(), want)
}

// The joins of the first bag with the second, each by its own call and all at once.
fn compare_joins<S: BuildHasher + Drop, S2: BuildHasher + Drop>(
    alloc: Global,
    place: &str,
    a: &Pair<S>,
    b: &Pair<S2>,
) -> Result<(), Fail> {
    let want = text_of_joins(alloc, &plain_joins(alloc, &a.plain, &b.plain)?)?;
    let want = want.as_str();
    are_joins(
        alloc,
        place,
        &joins_one_by_one(alloc, &a.bag, &b.bag)?,
        want,
    )?;
    are_joins(alloc, place, &joins_of(alloc, &a.bag, &b.bag)?, want)
}

fn compare_both<S: BuildHasher + Drop, S2: BuildHasher + Drop>(
    alloc: Global,
    place: &str,
    a: &Pair<S>,
    b: &Pair<S2>,
) -> Result<(), Fail> {
    compare_lens(alloc, place, a)?;
    compare_lens(alloc, place, b)?;
    compare_joins(alloc, place, a, b)?;
    compare_joins(alloc, place, b, a)
}

// The steps of two bags and of what they are compared with.
fn compare_runs<S: BuildHasher + Drop, S2: BuildHasher + Drop>(
    alloc: Global,
    a: &mut Pair<S>,
    b: &mut Pair<S2>,
    met: &mut Met,
) -> Result<(), Fail> {
    let (mut first, mut second) = (1, 2);
    for step in 0..STEPS {
        let place = format!(in alloc; "step {step}")?;
        first = next_number(first);
        compare_step(alloc, place.as_str(), a, met, first, step)?;
        second = next_number(second);
        compare_step(alloc, place.as_str(), b, met, second, step)?;
        if step % 50 == 49 {
            compare_both(alloc, place.as_str(), a, b)?;
        }
    }
    Ok(())
}

// Checks that the steps of two lists met each of these so often at least, and the end of a `usize` so often.
fn met_enough(alloc: Global, met: &Met, at_end: usize) -> Result<(), Fail> {
    let seen = [
        (met.growths, 30),
        (met.carries, 10),
        (met.removed, 300),
        (met.reused, 80),
        (met.too_many, 100),
        (met.full, 100),
        (met.at_end, at_end),
        (met.below_total, 10),
    ];
    let kinds = met.kinds.iter().all(|count| *count >= 8);
    if kinds && seen.iter().all(|(count, least)| count >= least) {
        return Ok(());
    }
    let met = debug_of(alloc, met)?;
    Err(Fail::new(format_args!("too little was met: {met}")))
}

fn compare_pairs<S: BuildHasher + Drop, S2: BuildHasher + Drop>(
    alloc: Global,
    a: &mut Pair<S>,
    b: &mut Pair<S2>,
    at_end: usize,
) -> Result<(), Fail> {
    let mut met = Met::new(alloc)?;
    compare_runs(alloc, a, b, &mut met)?;
    met_enough(alloc, &met, at_end)
}

fn compare_under<S: BuildHasher + Copy, S2: BuildHasher + Copy>(
    alloc: Global,
    first: S,
    second: S2,
) -> Result<(), Fail> {
    for (times, other_times) in &BALLASTS {
        let mut a = new_pair::<S>(alloc, first, *times)?;
        let mut b = new_pair::<S2>(alloc, second, *other_times)?;
        let at_end = if *times == 0 { 0 } else { 100 };
        compare_pairs(alloc, &mut a, &mut b, at_end)?;
    }
    Ok(())
}

// Each state in turn with the next.
#[test]
fn tagged_as_in_plain_lists(rt: HostRuntime) -> Result<(), Fail> {
    let alloc = rt.alloc();
    compare_under(alloc, FixedState::new(), OneState)?;
    compare_under(alloc, OneState, ParityState)?;
    compare_under(alloc, ParityState, IdentityState)?;
    compare_under(alloc, IdentityState, FixedState::new())
}
