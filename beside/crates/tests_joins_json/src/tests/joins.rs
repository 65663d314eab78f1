//! Joins of two bags, step by step, under two hash states each: what is left by their size hints, and that both bags are as before after
//! each number of steps. `tests_rows` has rows of their items.
use hashbag::{FixedState, HashBag};
use hashbag_callers::join_uses::excess_of;
use std::alloc::{AllocError, Global};
use std::fmt::Debug;
use std::hash::BuildHasher;
use std::test::Fail;
use tests_kit::calls::{bag_of_counts, insert};
use tests_kit::texts::{counts, debug_of, halves, is_text, number, values};
use tests_kit::{IdentityState, OneState, ParityState, calls, rows_of};

// A join, two bags, and what the join returns step by step: the fewest and the most items that may be left, and then `+` where an item
// is given or `-` if none is. With `/` between them, one of several results is right, since values are looked up in no particular order.
const STEPS: &str = "
    difference | [3, 2, 1] | [] | 0..3+ 0..2+ 0..1+ 0..0- 0..0-
    not_in | [1, 2, 3] | [] | 0..3+ 0..2+ 0..1+ 0..0- 0..0-
    outer_join | [1, 2, 3] | [4, 5, 5] | 3..5+ 2..4+ 1..3+ 0..2+ 0..1+ 0..0- 0..0-
    signed_difference | [1, 2, 3] | [4, 5, 5] | 3..5+ 2..4+ 1..3+ 0..2+ 0..1+ 0..0- 0..0-
    difference | [1, 1, 2, 2, 2] | [1, 2, 3, 4, 5] | 0..2+ 0..1+ 0..0- 0..0-
    not_in | [1, 1, 2, 2, 2] | [3, 4, 5] | 0..2+ 0..1+ 0..0- 0..0-
    difference | [4, 5, 5, 5, 6, 6, 7] | [6, 7, 7, 7, 8, 9, 9] | 0..4+ 0..3+/0..2+ 0..2+/0..1+ 0..1-/0..0- 0..0- 0..0- 0..0- 0..0-
    not_in | [4, 5, 5, 5, 6, 6, 7] | [6, 7, 7, 7, 8, 9, 9] | 0..4+ 0..3+/0..2+/0..1+ 0..2-/0..1-/0..0- 0..0- 0..0- 0..0- 0..0- 0..0-
    outer_join | [4, 5, 5, 5, 6, 6, 7] | [6, 7, 7, 7, 8, 9, 9] | 4..8+ 3..7+ 2..6+ 1..5+ 0..4+ 0..3+/0..2+/0..1+ 0..2-/0..1-/0..0- 0..0-
    signed_difference | [4, 5, 5, 5, 6, 6, 7] | [6, 7, 7, 7, 8, 9, 9] | 4..8+ 3..7+ 2..6+ 1..5+ 0..4+ 0..3+/0..2+/0..1+ 0..2-/0..1-/0..0- 0..0-
    difference | 1..=25:1 |  | 0..25+ 0..24+ 0..23+ 0..22+ 0..21+ 0..20+ 0..19+ 0..18+ 0..17+ 0..16+ 0..15+ 0..14+ 0..13+ 0..12+ 0..11+ 0..10+ 0..9+ 0..8+ 0..7+ 0..6+ 0..5+ 0..4+ 0..3+ 0..2+ 0..1+ 0..0- 0..0-
    not_in | 1..=25:1 |  | 0..25+ 0..24+ 0..23+ 0..22+ 0..21+ 0..20+ 0..19+ 0..18+ 0..17+ 0..16+ 0..15+ 0..14+ 0..13+ 0..12+ 0..11+ 0..10+ 0..9+ 0..8+ 0..7+ 0..6+ 0..5+ 0..4+ 0..3+ 0..2+ 0..1+ 0..0- 0..0-
    outer_join | 1..=25:1 | 40:1 | 25..26+ 24..25+ 23..24+ 22..23+ 21..22+ 20..21+ 19..20+ 18..19+ 17..18+ 16..17+ 15..16+ 14..15+ 13..14+ 12..13+ 11..12+ 10..11+ 9..10+ 8..9+ 7..8+ 6..7+ 5..6+ 4..5+ 3..4+ 2..3+ 1..2+ 0..1+ 0..0- 0..0-
    signed_difference | 1..=25:1 | 40:1 | 25..26+ 24..25+ 23..24+ 22..23+ 21..22+ 20..21+ 19..20+ 18..19+ 17..18+ 16..17+ 15..16+ 14..15+ 13..14+ 12..13+ 11..12+ 10..11+ 9..10+ 8..9+ 7..8+ 6..7+ 5..6+ 4..5+ 3..4+ 2..3+ 1..2+ 0..1+ 0..0- 0..0-
    outer_join | 40:1 | 1..=25:1 | 1..26+ 0..25+ 0..24+ 0..23+ 0..22+ 0..21+ 0..20+ 0..19+ 0..18+ 0..17+ 0..16+ 0..15+ 0..14+ 0..13+ 0..12+ 0..11+ 0..10+ 0..9+ 0..8+ 0..7+ 0..6+ 0..5+ 0..4+ 0..3+ 0..2+ 0..1+ 0..0- 0..0-
    signed_difference | 40:1 | 1..=25:1 | 1..26+ 0..25+ 0..24+ 0..23+ 0..22+ 0..21+ 0..20+ 0..19+ 0..18+ 0..17+ 0..16+ 0..15+ 0..14+ 0..13+ 0..12+ 0..11+ 0..10+ 0..9+ 0..8+ 0..7+ 0..6+ 0..5+ 0..4+ 0..3+ 0..2+ 0..1+ 0..0- 0..0-
    difference | 40:1 | 1..=25:1 | 0..1+ 0..0- 0..0-
    not_in | 40:1 | 1..=25:1 | 0..1+ 0..0- 0..0-";

// A value, and how many more of it one bag has than another.
const EXCESSES: &str = "
    4 | 1
    5 | 3
    6 | 1
    7 | 0
    8 | 0
    1 | 0";

/// The bag of a list of values, or with the counts of a text.
pub fn bag_of<S: BuildHasher + Default + Drop>(
    alloc: Global,
    text: &str,
) -> Result<HashBag<u64, S>, Fail> {
    if text.starts_with('[') {
        return calls::bag_of(alloc, S::default(), values(alloc, text)?.as_slice());
    }
    bag_of_counts(alloc, S::default(), counts(alloc, text)?.as_slice())
}

/// The bags with the counts of two texts.
pub fn bags_of<S: BuildHasher + Default + Drop, S2: BuildHasher + Default + Drop>(
    alloc: Global,
    first: &str,
    second: &str,
) -> Result<(HashBag<u64, S>, HashBag<u64, S2>), Fail> {
    let a = bag_of(alloc, first)?;
    let b = bag_of(alloc, second)?;
    Ok((a, b))
}

/// The four parts of a row.
pub fn quarters(row: &str) -> Result<(&str, &str, &str, &str), Fail> {
    let (first, rest) = halves(row, "|")?;
    let (second, rest) = halves(rest, "|")?;
    let (third, fourth) = halves(rest, "|")?;
    Ok((first, second, third, fourth))
}

// A step of a join: the size hint before it, and whether an item was given.
fn step_text(
    alloc: Global,
    hint: (usize, Option<usize>),
    came: bool,
) -> Result<String, AllocError> {
    let fewest = hint.0;
    let mark = if came { '+' } else { '-' };
    match hint.1 {
        Some(most) => format!(in alloc; "{fewest}..{most}{mark} "),
        None => format!(in alloc; "{fewest}..{mark} "),
    }
}

// Takes this many steps of a join, which is then dropped.
fn text_of_steps<I: Iterator + Drop>(alloc: Global, join: I, steps: usize) -> Result<String, Fail>
where
    I::Item: Drop,
    requires any { (state : _) → I.can_next state }
{
    let mut join = join;
    let mut text = String::new(alloc);
    for _ in 0..steps {
        let step = step_text(alloc, join.size_hint(), join.next().is_some())?;
        text.push_str(step.as_str())?;
    }
    Ok(text)
}

// The first steps of one of the joins.
fn steps_of<S: BuildHasher + Drop, S2: BuildHasher + Drop>(
    alloc: Global,
    join: &str,
    a: &HashBag<u64, S>,
    b: &HashBag<u64, S2>,
    steps: usize,
) -> Result<String, Fail> {
    match join {
        "outer_join" => text_of_steps(alloc, a.outer_join(b), steps),
        "difference" => text_of_steps(alloc, a.difference(b), steps),
        "signed_difference" => text_of_steps(alloc, a.signed_difference(b), steps),
        "not_in" => text_of_steps(alloc, a.not_in(b), steps),
        _ => Err(Fail::new(format_args!("no join: {join}"))),
    }
}

fn is_one_of(word: &str, words: &str) -> bool {
    for other in words.split('/') {
        if other == word {
            return true;
        }
    }
    false
}

fn number_of_words(text: &str) -> usize {
    let mut number = 0usize;
    for _ in text.split_whitespace() {
        number = number.saturating_add(1);
    }
    number
}

// How many steps are one of those that are wanted at their place.
fn steps_as_wanted(got: &str, wanted: &str) -> usize {
    let mut as_wanted = 0usize;
    for (step, words) in got.split_whitespace().zip(wanted.split_whitespace()) {
        if is_one_of(step, words) {
            as_wanted = as_wanted.saturating_add(1);
        }
    }
    as_wanted
}

// Values with their counts, as `5:2 6:1 `.
fn text_of_counts(alloc: Global, pairs: &[(u64, usize)]) -> Result<String, Fail> {
    let mut text = String::new(alloc);
    for (value, count) in pairs {
        let pair = format!(in alloc; "{value}:{count} ")?;
        text.push_str(pair.as_str())?;
    }
    Ok(text)
}

// The text of a bag's counts, values in ascending order.
fn counts_of<S: BuildHasher + Drop>(alloc: Global, bag: &HashBag<u64, S>) -> Result<String, Fail> {
    let mut pairs: Vec<(u64, usize)> = Vec::new(alloc);
    for (value, count) in bag.set_iter() {
        pairs.push((*value, count))?;
    }
    pairs.sort_unstable();
    text_of_counts(alloc, pairs.as_slice())
}

// Checks the first steps of a join.
fn has_steps(got: &str, wanted: &str, steps: usize) -> Result<(), Fail> {
    let as_wanted = steps_as_wanted(got, wanted);
    if as_wanted == steps {
        return Ok(());
    }
    Err(Fail::new(format_args!("{as_wanted} of {steps} steps as wanted: {got}")))
}

// All counts of a bag, and its slots, those that wait, and its room.
fn state_of<S: BuildHasher + Drop>(alloc: Global, bag: &HashBag<u64, S>) -> Result<String, Fail> {
    let counts = counts_of(alloc, bag)?;
    let (slots, waiting, room) = (bag.slots(), bag.waiting(), bag.room());
    Ok(format!(in alloc; "{counts}in {slots} {waiting} {room}")?)
}

// Checks that a bag of 25 values is in the middle of a carry.
fn carries(values: usize, state: &str) -> Result<(), Fail> {
    if values < 25 || state.ends_with("in 64 16 23") {
        return Ok(());
    }
    Err(Fail::new(format_args!("no carry, but {state}")))
}

// Checks that a bag is as it was, and takes a value in.
fn is_as_before<S: BuildHasher + Drop>(
    alloc: Global,
    bag: &mut HashBag<u64, S>,
    before: &str,
) -> Result<(), Fail> {
    is_text(state_of(alloc, bag)?.as_str(), before)?;
    let inserted = (insert(bag, 1000)?, bag.contains(&1000));
    is_text(debug_of(alloc, &inserted)?.as_str(), "(0, 1)")
}

// The state of a bag, which is in the middle of a carry if it has 25 values.
fn state_in_a_carry<S: BuildHasher + Drop>(
    alloc: Global,
    bag: &HashBag<u64, S>,
) -> Result<String, Fail> {
    let state = state_of(alloc, bag)?;
    carries(bag.set_len(), state.as_str())?;
    Ok(state)
}

// Checks that the first steps of a join give what is wanted.
fn gives<S: BuildHasher + Drop, S2: BuildHasher + Drop>(
    alloc: Global,
    join: (&str, &str),
    a: &HashBag<u64, S>,
    b: &HashBag<u64, S2>,
    steps: usize,
) -> Result<(), Fail> {
    let got = steps_of(alloc, join.0, a, b, steps)?;
    has_steps(got.as_str(), join.1, steps)
}

// Checks that a join that is dropped after some steps leaves both bags as they were.
fn leaves_both<S: BuildHasher + Drop, S2: BuildHasher + Drop>(
    alloc: Global,
    join: (&str, &str),
    a: &mut HashBag<u64, S>,
    b: &mut HashBag<u64, S2>,
    steps: usize,
) -> Result<(), Fail> {
    let before_a = state_in_a_carry(alloc, &*a)?;
    let before_b = state_in_a_carry(alloc, &*b)?;
    gives(alloc, join, &*a, &*b, steps)?;
    is_as_before(alloc, a, before_a.as_str())?;
    is_as_before(alloc, b, before_b.as_str())
}

fn is_stepped<S: BuildHasher + Default + Drop, S2: BuildHasher + Default + Drop>(
    alloc: Global,
    row: &str,
    steps: usize,
) -> Result<(), Fail> {
    let (join, first, second, wanted) = quarters(row)?;
    let (mut a, mut b) = bags_of::<S, S2>(alloc, first, second)?;
    leaves_both(alloc, (join, wanted), &mut a, &mut b, steps)
}

// A join, dropped after each number of its steps.
fn is_dropped_after_each<S: BuildHasher + Default + Drop, S2: BuildHasher + Default + Drop>(
    alloc: Global,
    row: &str,
) -> Result<(), Fail> {
    let (_, _, _, wanted) = quarters(row)?;
    for steps in 0..=number_of_words(wanted) {
        is_stepped::<S, S2>(alloc, row, steps)?;
    }
    Ok(())
}

// All rows, under two states.
fn joins_under<S: BuildHasher + Default + Drop, S2: BuildHasher + Default + Drop>(
    alloc: Global,
) -> Result<(), Fail> {
    for row in rows_of(alloc, STEPS)? {
        row.tested(is_dropped_after_each::<S, S2>(alloc, row.text))?;
    }
    Ok(())
}

#[test]
fn joins_step_by_step(rt: HostRuntime) -> Result<(), Fail> {
    joins_under::<OneState, IdentityState>(rt.alloc())?;
    joins_under::<IdentityState, OneState>(rt.alloc())?;
    joins_under::<FixedState, ParityState>(rt.alloc())?;
    joins_under::<ParityState, FixedState>(rt.alloc())
}

// How many more of a value the first bag has.
fn excess<S: BuildHasher + Drop, S2: BuildHasher + Drop>(
    a: &HashBag<u64, S>,
    b: &HashBag<u64, S2>,
    value: u64,
) -> usize {
    excess_of(a, b, &value)
}

fn is_excess<S: BuildHasher + Drop, S2: BuildHasher + Drop>(
    alloc: Global,
    a: &HashBag<u64, S>,
    b: &HashBag<u64, S2>,
    row: &str,
) -> Result<(), Fail> {
    let (value, wanted) = halves(row, "|")?;
    let got = debug_of(alloc, &excess(a, b, number(value)?))?;
    is_text(got.as_str(), wanted)
}

#[test]
fn excesses_one_by_one(rt: HostRuntime) -> Result<(), Fail> {
    let alloc = rt.alloc();
    let (a, b) = bags_of::<OneState, IdentityState>(alloc, "4:1 5:3 6:2 7:1", "6:1 7:3 8:1 9:2")?;
    for row in rows_of(alloc, EXCESSES)? {
        row.tested(is_excess(alloc, &a, &b, row.text))?;
    }
    Ok(())
}
