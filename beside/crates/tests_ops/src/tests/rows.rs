//! Each call on two bags, with what it returns and leaves found by hand, if the two bags hash alike and if they don't.
use crate::tests::bags::{bag_of, counts_of, text_of_list, thirds};
use crate::tests::calls::answer;
use hashbag::{FixedState, HashBag};
use std::alloc::Global;
use std::hash::BuildHasher;
use std::test::Fail;
use tests_kit::texts::{count, halves, is_text};
use tests_kit::{IdentityState, OneState, ParityState, calls, rows_of};

// A call, and the limit of the first bag, with `-` if none is set; the two bags; the result, and the total that is left; the counts
// that are left. `1..=25` are these values, once each: 25 values are in the middle of a carry. The second bag is at a limit of its own.
const SUMS: &str = "
    merge - | | | () 0 |
    merge - | | 5:2 6:1 | () 3 | 5:2 6:1
    merge - | 5:2 6:1 | | () 3 | 5:2 6:1
    merge - | 5:2 6:1 | 5:3 7:1 | () 7 | 5:5 6:1 7:1
    merge - | 1..=25 | 1:3 26:2 | () 30 | 1:4 2..=25 26:2
    merge - | 1:3 26:2 | 1..=25 | () 30 | 1:4 2..=25 26:2
    merge - | 1..=25 | 13..=37 | () 50 | 1..=12 13:2 14:2 15:2 16:2 17:2 18:2 19:2 20:2 21:2 22:2 23:2 24:2 25:2 26..=37
    merge - | 1..=25 | 26..=75 | () 75 | 1..=75
    merge 5 | 5:2 6:1 | 5:2 | () 5 | 5:4 6:1
    merge 5 | 5:2 6:1 | 5:3 | TooMany 3 | 5:2 6:1
    merge 5 | 5:2 6:1 | 7:1 8:2 | TooMany 3 | 5:2 6:1
    merge 3 | 5:2 6:1 | | () 3 | 5:2 6:1
    merge 0 | | | () 0 |
    merge 0 | | 1:1 | TooMany 0 |
    merge 27 | 1..=25 | 1:1 26:1 | () 27 | 1:2 2..=26
    merge 27 | 1..=25 | 1:1 26:2 | TooMany 25 | 1..=25
    merge 49 | 1..=25 | 13..=37 | TooMany 25 | 1..=25
    merge - | 1:18446744073709551614 | 1:1 | () 18446744073709551615 | 1:18446744073709551615
    merge - | 1:18446744073709551615 | 2:1 | TooMany 18446744073709551615 | 1:18446744073709551615
    merge - | 1:9223372036854775808 | 1:9223372036854775808 | TooMany 9223372036854775808 | 1:9223372036854775808
    merge_ref - | | | () 0 |
    merge_ref - | | 5:2 6:1 | () 3 | 5:2 6:1
    merge_ref - | 5:2 6:1 | | () 3 | 5:2 6:1
    merge_ref - | 5:2 6:1 | 5:3 7:1 | () 7 | 5:5 6:1 7:1
    merge_ref - | 1..=25 | 1:3 26:2 | () 30 | 1:4 2..=25 26:2
    merge_ref - | 1:3 26:2 | 1..=25 | () 30 | 1:4 2..=25 26:2
    merge_ref 5 | 5:2 6:1 | 5:2 | () 5 | 5:4 6:1
    merge_ref 5 | 5:2 6:1 | 5:3 | TooMany 3 | 5:2 6:1
    merge_ref 27 | 1..=25 | 1:1 26:1 | () 27 | 1:2 2..=26
    merge_ref 27 | 1..=25 | 1:1 26:2 | TooMany 25 | 1..=25
    merge_ref - | 1:18446744073709551615 | 2:1 | TooMany 18446744073709551615 | 1:18446744073709551615
    keep_most - | | | () 0 |
    keep_most - | | 5:2 6:1 | () 3 | 5:2 6:1
    keep_most - | 5:2 6:1 | | () 3 | 5:2 6:1
    keep_most - | 5:2 6:4 8:1 | 5:3 6:1 7:1 8:1 | () 9 | 5:3 6:4 7:1 8:1
    keep_most - | 1..=25 | 1:3 2:1 26:2 | () 29 | 1:3 2..=25 26:2
    keep_most - | 1:3 26:2 | 1..=25 | () 29 | 1:3 2..=25 26:2
    keep_most 5 | 5:2 6:1 | 5:3 7:1 | () 5 | 5:3 6:1 7:1
    keep_most 4 | 5:2 6:1 | 5:3 7:1 | TooMany 3 | 5:2 6:1
    keep_most 3 | 5:2 6:1 | 5:2 6:1 | () 3 | 5:2 6:1
    keep_most 26 | 1..=25 | 1:2 2..=25 | () 26 | 1:2 2..=25
    keep_most 26 | 1..=25 | 1:3 2..=25 | TooMany 25 | 1..=25
    keep_most - | 1:18446744073709551615 | 1:5 | () 18446744073709551615 | 1:18446744073709551615
    keep_most - | 1:18446744073709551614 | 1:5 2:2 | TooMany 18446744073709551614 | 1:18446744073709551614";

// The same of the calls that can't fail.
const PARTS: &str = "
    keep_common - | | | () 0 |
    keep_common - | | 5:2 | () 0 |
    keep_common - | 5:2 6:1 | | () 0 |
    keep_common - | 5:5 6:1 7:2 8:1 | 5:3 7:4 8:1 9:2 | () 6 | 5:3 7:2 8:1
    keep_common 9 | 5:5 6:4 | 5:1 6:9 | () 5 | 5:1 6:4
    keep_common - | 1..=25 | 2:3 20:1 26:1 | () 2 | 2:1 20:1
    keep_common - | 2:3 20:1 26:1 | 1..=25 | () 2 | 2:1 20:1
    keep_common 25 | 1..=25 | 1..=25 | () 25 | 1..=25
    keep_common - | 1..=25 | | () 0 |
    keep_common - | 1:18446744073709551615 | 1:18446744073709551614 | () 18446744073709551614 | 1:18446744073709551614
    take_away - | | | () 0 |
    take_away - | | 5:2 | () 0 |
    take_away - | 5:2 6:1 | | () 3 | 5:2 6:1
    take_away - | 5:5 6:1 7:2 8:1 | 5:3 7:4 8:1 9:2 | () 3 | 5:2 6:1
    take_away 9 | 5:5 6:4 | 5:1 6:9 | () 4 | 5:4
    take_away - | 1..=25 | 2:3 20:1 26:1 | () 23 | 1:1 3..=19 21..=25
    take_away - | 2:3 20:1 26:1 | 1..=25 | () 3 | 2:2 26:1
    take_away - | 1..=25 | 1..=25 | () 0 |
    take_away 25 | 1..=25 | 26:1 | () 25 | 1..=25
    take_away - | 1:18446744073709551615 | 1:18446744073709551614 | () 1 | 1:1
    contains_all - | | | true 0 |
    contains_all - | | 5:1 | false 0 |
    contains_all - | 5:1 | | true 1 | 5:1
    contains_all - | 5:3 6:1 | 5:3 | true 4 | 5:3 6:1
    contains_all - | 5:3 6:1 | 5:4 | false 4 | 5:3 6:1
    contains_all - | 5:3 6:1 | 5:1 6:1 | true 4 | 5:3 6:1
    contains_all - | 5:3 6:1 | 5:1 7:1 | false 4 | 5:3 6:1
    contains_all - | 1..=25 | 1..=25 | true 25 | 1..=25
    contains_all - | 1..=25 | 17:2 | false 25 | 1..=25
    contains_all - | 1..=24 | 1..=25 | false 24 | 1..=24
    is_disjoint - | | | true 0 |
    is_disjoint - | | 5:1 | true 0 |
    is_disjoint - | 5:1 | | true 1 | 5:1
    is_disjoint - | 5:1 | 6:1 | true 1 | 5:1
    is_disjoint - | 5:1 | 5:1 | false 1 | 5:1
    is_disjoint - | 5:3 | 5:1 6:2 7:1 | false 3 | 5:3
    is_disjoint - | 5:1 6:2 7:1 | 7:3 | false 4 | 5:1 6:2 7:1
    is_disjoint - | 5:1 6:2 7:1 | 8:3 | true 4 | 5:1 6:2 7:1
    is_disjoint - | 1..=25 | 26..=60 | true 25 | 1..=25
    is_disjoint - | 1..=25 | 25..=60 | false 25 | 1..=25
    is_disjoint - | 1..=25 | 17:1 | false 25 | 1..=25";

// The bag with the counts of a text, and the limit that a word says.
fn limited_bag_of<S: BuildHasher + Default + Drop>(
    alloc: Global,
    text: &str,
    word: &str,
) -> Result<HashBag<u64, S>, Fail> {
    let mut bag = bag_of(alloc, text)?;
    if word != "-" {
        bag.set_limit(count(word)?)?;
    }
    Ok(bag)
}

// The bag with the counts of a text, which nothing can be added to.
fn full_bag_of<S: BuildHasher + Default + Drop>(
    alloc: Global,
    text: &str,
) -> Result<HashBag<u64, S>, Fail> {
    let mut bag = bag_of(alloc, text)?;
    bag.set_limit(bag.len())?;
    Ok(bag)
}

// The limit and the tables of a bag.
fn state_of<S: BuildHasher + Default + Drop>(
    alloc: Global,
    bag: &mut HashBag<u64, S>,
) -> Result<(String, String), Fail> {
    Ok((
        calls::answer(alloc, bag, "limit")?,
        calls::answer(alloc, bag, "tables")?,
    ))
}

// Checks that the limit is as it was, and the tables too if the call returned `TooMany`.
fn is_within(got: &str, before: &(String, String), after: &(String, String)) -> Result<(), Fail> {
    is_text(after.0.as_str(), before.0.as_str())?;
    if got == "TooMany" {
        is_text(after.1.as_str(), before.1.as_str())?;
    }
    Ok(())
}

// Makes a call, and returns the text of what it returns, and the total that is left.
fn answer_within<S: BuildHasher + Default + Drop, S2: BuildHasher + Clone + Drop>(
    alloc: Global,
    call: &str,
    a: &mut HashBag<u64, S>,
    b: HashBag<u64, S2>,
) -> Result<String, Fail> {
    let before = state_of(alloc, a)?;
    let got = answer(alloc, call, a, b)?;
    is_within(got.as_str(), &before, &state_of(alloc, a)?)?;
    let len = calls::answer(alloc, a, "len")?;
    Ok(format!(in alloc; "{got} {len}")?)
}

// Returns the text of what a call on two bags returns, and the counts that it leaves.
fn answer_of<S: BuildHasher + Default + Drop, S2: BuildHasher + Default + Clone + Drop>(
    alloc: Global,
    head: &str,
    first: &str,
    second: &str,
) -> Result<(String, String), Fail> {
    let (call, most) = halves(head, " ")?;
    let mut a = limited_bag_of::<S>(alloc, first, most)?;
    let b = full_bag_of::<S2>(alloc, second)?;
    let got = answer_within(alloc, call, &mut a, b)?;
    Ok((got, counts_of(alloc, &a)?))
}

fn is_answered<S: BuildHasher + Default + Drop, S2: BuildHasher + Default + Clone + Drop>(
    alloc: Global,
    row: &str,
) -> Result<(), Fail> {
    let (head, first, rest) = thirds(row)?;
    let (second, wanted, left) = thirds(rest)?;
    let (got, counts) = answer_of::<S, S2>(alloc, head, first, second)?;
    is_text(got.as_str(), wanted)?;
    is_text(counts.as_str(), text_of_list(alloc, left)?.as_str())
}

// All rows, under two states.
fn rows_under<S: BuildHasher + Default + Drop, S2: BuildHasher + Default + Clone + Drop>(
    alloc: Global,
) -> Result<(), Fail> {
    for row in rows_of(alloc, SUMS)? {
        row.tested(is_answered::<S, S2>(alloc, row.text))?;
    }
    for row in rows_of(alloc, PARTS)? {
        row.tested(is_answered::<S, S2>(alloc, row.text))?;
    }
    Ok(())
}

#[test]
fn under_one_state(rt: HostRuntime) -> Result<(), Fail> {
    rows_under::<OneState, OneState>(rt.alloc())
}

#[test]
fn under_states_that_differ(rt: HostRuntime) -> Result<(), Fail> {
    rows_under::<FixedState, ParityState>(rt.alloc())?;
    rows_under::<IdentityState, OneState>(rt.alloc())
}
