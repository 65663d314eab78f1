//! The callers that are laws, once each: what they return, and the counts that are left.
use crate::tests::bags::{bag_of, counts_of, text_of_list, thirds};
use hashbag::{BagError, FixedState, HashBag};
use hashbag_ops::laws::{count_in_parts, merges_associate, merges_commute, put_in_and_taken_out};
use std::alloc::Global;
use std::test::Fail;
use tests_kit::rows_of;
use tests_kit::texts::{counts, debug_of, is_text};

// Two bags, and the counts of their sum.
const ROWS: &str = "
    | |
    5:2 6:1 | | 5:2 6:1
    5:2 6:1 | 5:3 7:1 | 5:5 6:1 7:1
    1..=25 | 1:3 26:2 | 1:4 2..=25 26:2";

type Bag = HashBag<u64, FixedState>;

// Whether two bags have one sum in each order.
fn commute(a: Bag, b: Bag) -> Result<bool, BagError> {
    let same_a = a.clone()?;
    let same_b = b.clone()?;
    merges_commute(a, b, same_a, same_b)
}

// Whether three bags have one sum in each group.
fn associate(a: Bag, b: Bag, c: Bag) -> Result<bool, BagError> {
    let same_a = a.clone()?;
    let same_b = b.clone()?;
    let same_c = c.clone()?;
    merges_associate(a, b, c, same_a, same_b, same_c)
}

// Puts a bag into another, and takes a clone of it out.
fn put_in(bag: &mut Bag, other: Bag) -> Result<(), BagError> {
    let same = other.clone()?;
    put_in_and_taken_out(bag, other, &same)
}

fn in_parts(alloc: Global, first: Vec<u64>, second: Vec<u64>) -> Result<Bag, BagError> {
    count_in_parts(alloc, first, second)
}

// Adds a value so often.
fn add(list: &mut Vec<u64>, value: u64, times: usize) -> Result<(), Fail> {
    for _ in 0..times {
        list.push(value)?;
    }
    Ok(())
}

// The list of these values, each so often.
fn list_of(alloc: Global, text: &str) -> Result<Vec<u64>, Fail> {
    let mut list = Vec::new(alloc);
    for (value, times) in counts(alloc, text)? {
        add(&mut list, value, times)?;
    }
    Ok(list)
}

fn sums_commute(alloc: Global, first: &str, second: &str) -> Result<bool, Fail> {
    Ok(commute(bag_of(alloc, first)?, bag_of(alloc, second)?)?)
}

fn sums_associate(alloc: Global, first: &str, second: &str) -> Result<bool, Fail> {
    Ok(associate(
        bag_of(alloc, first)?,
        bag_of(alloc, second)?,
        bag_of(alloc, "5:9")?,
    )?)
}

// The counts of the first bag, after the second was put in and taken out.
fn left_of_first(alloc: Global, first: &str, second: &str) -> Result<String, Fail> {
    let mut a: Bag = bag_of(alloc, first)?;
    put_in(&mut a, bag_of(alloc, second)?)?;
    counts_of(alloc, &a)
}

// The counts of both lists.
fn counted_in_parts(alloc: Global, first: &str, second: &str) -> Result<String, Fail> {
    counts_of(
        alloc,
        &in_parts(alloc, list_of(alloc, first)?, list_of(alloc, second)?)?,
    )
}

fn hold(alloc: Global, row: &str) -> Result<(), Fail> {
    let (first, second, wanted) = thirds(row)?;
    let agree = (
        sums_commute(alloc, first, second)?,
        sums_associate(alloc, first, second)?,
    );
    is_text(debug_of(alloc, &agree)?.as_str(), "(true, true)")?;
    let left = left_of_first(alloc, first, second)?;
    is_text(left.as_str(), text_of_list(alloc, first)?.as_str())?;
    let counts = counted_in_parts(alloc, first, second)?;
    is_text(counts.as_str(), text_of_list(alloc, wanted)?.as_str())
}

#[test]
fn laws_at_rows(rt: HostRuntime) -> Result<(), Fail> {
    for row in rows_of(rt.alloc(), ROWS)? {
        row.tested(hold(rt.alloc(), row.text))?;
    }
    Ok(())
}
