//! Joins of two bags, with the items found by hand, under two hash states each.
use hashbag::script::{Joins, joins_of};
use hashbag::{FixedState, HashBag};
use std::alloc::Global;
use std::fmt::Debug;
use std::hash::BuildHasher;
use std::test::Fail;
use tests_kit::calls::{bag_of, bag_of_counts};
use tests_kit::texts::{counts, debug_of, halves, is_text, values};
use tests_kit::{IdentityState, OneState, ParityState, rows_of};

// A join, two bags, and the items of the join, values in ascending order. The values in brackets are inserted one after another; else each
// value is inserted as often as its number. Bags of 25 values are in the middle of a carry.
const ROWS: &str = "
    difference | [] | [] | []
    difference | [] | [1] | []
    difference | [] | [1, 1] | []
    difference | [] | [1, 1, 2] | []
    difference | [1] | [] | [(1, 1)]
    difference | [1] | [1] | []
    difference | [1] | [1, 1] | []
    difference | [1] | [2] | [(1, 1)]
    difference | [1] | [1, 2] | []
    difference | [1] | [2, 2] | [(1, 1)]
    difference | [1, 1] | [] | [(1, 2)]
    difference | [1, 1] | [1] | [(1, 1)]
    difference | [1, 1] | [1, 1] | []
    difference | [1, 1] | [2] | [(1, 2)]
    difference | [1, 1] | [1, 2] | [(1, 1)]
    difference | [1, 1] | [2, 2] | [(1, 2)]
    difference | [1, 1, 2] | [] | [(1, 2), (2, 1)]
    difference | [1, 1, 2] | [1] | [(1, 1), (2, 1)]
    difference | [1, 1, 2] | [1, 1] | [(2, 1)]
    difference | [1, 1, 2] | [2] | [(1, 2)]
    difference | [1, 1, 2] | [1, 2] | [(1, 1)]
    difference | [1, 1, 2] | [2, 2] | [(1, 2)]
    difference | [1, 2, 2, 3] | [3] | [(1, 1), (2, 2)]
    difference | [1, 2, 2, 3] | [4] | [(1, 1), (2, 2), (3, 1)]
    difference | [2, 2, 2, 2] | [2, 2] | [(2, 2)]
    difference | [2, 2, 2, 2] | [] | [(2, 4)]
    difference | [1, 2, 3, 3] | [2, 3, 4, 4] | [(1, 1), (3, 1)]
    difference | [] | [1, 2, 2, 3] | []
    difference | [104, 97, 115, 104] | [109, 97, 116, 104] | [(104, 1), (115, 1)]
    difference | 1:18446744073709551615 | 1:1 | [(1, 18446744073709551614)]
    difference | 1:9223372036854775807 | 1:18446744073709551615 | []
    outer_join | [] | [] | []
    outer_join | [104, 97, 115, 104] | [109, 97, 116, 104] | [(97, 1, 1), (104, 2, 1), (109, 0, 1), (115, 1, 0), (116, 0, 1)]
    outer_join | [] | [1, 2, 2, 3] | [(1, 0, 1), (2, 0, 2), (3, 0, 1)]
    outer_join | [1, 2, 2, 3] | [] | [(1, 1, 0), (2, 2, 0), (3, 1, 0)]
    outer_join | [1, 2, 2, 3, 3] | [3, 4, 5, 5] | [(1, 1, 0), (2, 2, 0), (3, 2, 1), (4, 0, 1), (5, 0, 2)]
    outer_join | [1, 2, 3] | [4, 5, 6] | [(1, 1, 0), (2, 1, 0), (3, 1, 0), (4, 0, 1), (5, 0, 1), (6, 0, 1)]
    outer_join | [1, 2, 2, 3] | [4, 4, 5, 6] | [(1, 1, 0), (2, 2, 0), (3, 1, 0), (4, 0, 2), (5, 0, 1), (6, 0, 1)]
    outer_join | [1, 2, 3] | [2, 3, 4] | [(1, 1, 0), (2, 1, 1), (3, 1, 1), (4, 0, 1)]
    outer_join | [1, 1, 2, 3] | [2, 3, 3, 3, 4] | [(1, 2, 0), (2, 1, 1), (3, 1, 3), (4, 0, 1)]
    signed_difference | [] | [] | []
    signed_difference | [1, 2, 3, 3] | [2, 3, 4, 4] | [(1, 1), (2, 0), (3, 1), (4, -2)]
    signed_difference | [1, 2, 2, 3] | [] | [(1, 1), (2, 2), (3, 1)]
    signed_difference | [1, 2, 2, 3, 3] | [3, 4, 5, 5] | [(1, 1), (2, 2), (3, 1), (4, -1), (5, -2)]
    signed_difference | [] | [1, 2, 2, 3] | [(1, -1), (2, -2), (3, -1)]
    signed_difference | 1:9223372036854776807 | 1:9223372036854775807 | [(1, 1000)]
    signed_difference | 1:9223372036854775807 | 1:9223372036854776807 | [(1, -1000)]
    signed_difference | 1:9223372036854776807 |  | [(1, 9223372036854775807)]
    signed_difference |  | 1:9223372036854776807 | [(1, -9223372036854775808)]
    signed_difference |  | 1:9223372036854775808 | [(1, -9223372036854775808)]
    signed_difference | 1:9223372036854775807 |  | [(1, 9223372036854775807)]
    signed_difference |  | 1:9223372036854775807 | [(1, -9223372036854775807)]
    not_in | [] | [1, 2, 3, 3] | []
    not_in | [1, 2, 3, 3] | [] | [(1, 1), (2, 1), (3, 2)]
    not_in | [1, 2, 3, 3] | [2, 4] | [(1, 1), (3, 2)]
    not_in | [1, 2, 3, 3] | [2, 3, 4, 4] | [(1, 1)]
    not_in | [] | [1, 2, 2, 3] | []
    not_in | 1:18446744073709551615 | 2:1 | [(1, 18446744073709551615)]
    outer_join | [1, 2, 3, 3] | [2, 3, 4, 4] | [(1, 1, 0), (2, 1, 1), (3, 2, 1), (4, 0, 2)]
    outer_join | 1..=25:1 | 13..=37:2 | [(1, 1, 0), (2, 1, 0), (3, 1, 0), (4, 1, 0), (5, 1, 0), (6, 1, 0), (7, 1, 0), (8, 1, 0), (9, 1, 0), (10, 1, 0), (11, 1, 0), (12, 1, 0), (13, 1, 2), (14, 1, 2), (15, 1, 2), (16, 1, 2), (17, 1, 2), (18, 1, 2), (19, 1, 2), (20, 1, 2), (21, 1, 2), (22, 1, 2), (23, 1, 2), (24, 1, 2), (25, 1, 2), (26, 0, 2), (27, 0, 2), (28, 0, 2), (29, 0, 2), (30, 0, 2), (31, 0, 2), (32, 0, 2), (33, 0, 2), (34, 0, 2), (35, 0, 2), (36, 0, 2), (37, 0, 2)]
    difference | 1..=25:1 | 13..=37:2 | [(1, 1), (2, 1), (3, 1), (4, 1), (5, 1), (6, 1), (7, 1), (8, 1), (9, 1), (10, 1), (11, 1), (12, 1)]
    difference | 13..=37:2 | 1..=25:1 | [(13, 1), (14, 1), (15, 1), (16, 1), (17, 1), (18, 1), (19, 1), (20, 1), (21, 1), (22, 1), (23, 1), (24, 1), (25, 1), (26, 2), (27, 2), (28, 2), (29, 2), (30, 2), (31, 2), (32, 2), (33, 2), (34, 2), (35, 2), (36, 2), (37, 2)]
    signed_difference | 1..=25:1 | 13..=37:2 | [(1, 1), (2, 1), (3, 1), (4, 1), (5, 1), (6, 1), (7, 1), (8, 1), (9, 1), (10, 1), (11, 1), (12, 1), (13, -1), (14, -1), (15, -1), (16, -1), (17, -1), (18, -1), (19, -1), (20, -1), (21, -1), (22, -1), (23, -1), (24, -1), (25, -1), (26, -2), (27, -2), (28, -2), (29, -2), (30, -2), (31, -2), (32, -2), (33, -2), (34, -2), (35, -2), (36, -2), (37, -2)]
    not_in | 1..=25:1 | 13..=37:2 | [(1, 1), (2, 1), (3, 1), (4, 1), (5, 1), (6, 1), (7, 1), (8, 1), (9, 1), (10, 1), (11, 1), (12, 1)]
    not_in | 13..=37:2 | 1..=25:1 | [(26, 2), (27, 2), (28, 2), (29, 2), (30, 2), (31, 2), (32, 2), (33, 2), (34, 2), (35, 2), (36, 2), (37, 2)]";

// The bag of a list of values, or with the counts of a text.
fn bag_as<S: BuildHasher + Default + Drop>(
    alloc: Global,
    text: &str,
) -> Result<HashBag<u64, S>, Fail> {
    if text.starts_with('[') {
        return bag_of(alloc, S::default(), values(alloc, text)?.as_slice());
    }
    bag_of_counts(alloc, S::default(), counts(alloc, text)?.as_slice())
}

// The four parts of a row.
fn quarters(row: &str) -> Result<(&str, &str, &str, &str), Fail> {
    let (first, rest) = halves(row, "|")?;
    let (second, rest) = halves(rest, "|")?;
    let (third, fourth) = halves(rest, "|")?;
    Ok((first, second, third, fourth))
}

// The text of some items, in ascending order.
fn rising<T: Ord + Debug + Copy>(alloc: Global, items: Vec<T>) -> Result<String, Fail> {
    let mut items = items;
    items.sort_unstable();
    debug_of(alloc, &items)
}

// Whether all values of the bag stand before all others.
fn is_first_before<S: BuildHasher + Drop>(bag: &HashBag<u64, S>, values: &[&u64]) -> bool {
    let mut ended = false;
    for value in values {
        if bag.contains(*value) == 0 {
            ended = true;
        } else if ended {
            return false;
        }
    }
    true
}

// The text of one of the four joins.
fn text_of(alloc: Global, joins: Joins<'_, u64>, join: &str) -> Result<String, Fail> {
    match join {
        "outer_join" => rising(alloc, joins.outer),
        "difference" => rising(alloc, joins.difference),
        "signed_difference" => rising(alloc, joins.signed),
        "not_in" => rising(alloc, joins.not_in),
        _ => Err(Fail::new(format_args!("no join: {join}"))),
    }
}

// The text of a join of two bags.
fn joined<S: BuildHasher + Drop, S2: BuildHasher + Drop>(
    alloc: Global,
    join: &str,
    a: &HashBag<u64, S>,
    b: &HashBag<u64, S2>,
) -> Result<String, Fail> {
    let joins = joins_of(alloc, a, b)?;
    let outer: Vec<&u64> = joins.outer.iter().map(|item| item.0).collect(alloc)?;
    let signed: Vec<&u64> = joins.signed.iter().map(|item| item.0).collect(alloc)?;
    if is_first_before(a, outer.as_slice()) && is_first_before(a, signed.as_slice()) {
        return text_of(alloc, joins, join);
    }
    Err(Fail::new("a value of the first bag comes late"))
}

fn is_joined<S: BuildHasher + Default + Drop, S2: BuildHasher + Default + Drop>(
    alloc: Global,
    row: &str,
) -> Result<(), Fail> {
    let (join, first, second, wanted) = quarters(row)?;
    let a: HashBag<u64, S> = bag_as(alloc, first)?;
    let b: HashBag<u64, S2> = bag_as(alloc, second)?;
    let got = joined(alloc, join, &a, &b)?;
    is_text(got.as_str(), wanted)
}

// All rows, under two states.
fn are_joined<S: BuildHasher + Default + Drop, S2: BuildHasher + Default + Drop>(
    alloc: Global,
) -> Result<(), Fail> {
    for row in rows_of(alloc, ROWS)? {
        row.tested(is_joined::<S, S2>(alloc, row.text))?;
    }
    Ok(())
}

#[test]
fn joins(rt: HostRuntime) -> Result<(), Fail> {
    are_joined::<OneState, IdentityState>(rt.alloc())?;
    are_joined::<IdentityState, OneState>(rt.alloc())?;
    are_joined::<FixedState, ParityState>(rt.alloc())?;
    are_joined::<ParityState, FixedState>(rt.alloc())
}

// The size hints of a difference before each of its items and after them, and whether two more calls of `next` return `None`.
fn hints_of<S: BuildHasher + Drop, S2: BuildHasher + Drop>(
    alloc: Global,
    a: &HashBag<u64, S>,
    b: &HashBag<u64, S2>,
) -> Result<String, Fail> {
    let mut join = a.difference(b);
    let mut hints = Vec::new(alloc);
    for _ in 0..a.set_len() {
        hints.push(join.size_hint())?;
        let _ = join.next();
    }
    hints.push(join.size_hint())?;
    let ends = (join.next().is_none(), join.next().is_none());
    debug_of(alloc, &(hints, ends))
}

#[test]
fn hints_of_a_difference(rt: HostRuntime) -> Result<(), Fail> {
    let alloc = rt.alloc();
    let a = bag_of(alloc, OneState, &[3, 2, 1])?;
    let b = bag_of(alloc, IdentityState, &[])?;
    is_text(
        hints_of(alloc, &a, &b)?.as_str(),
        "([(0, Some(3)), (0, Some(2)), (0, Some(1)), (0, Some(0))], (true, true))",
    )
}
