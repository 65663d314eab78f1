//! Calls on the limit of a bag, and calls that fail by it.
use crate::checks::{Wrong, check};
use crate::requests::{Single, extended};
use hashbag::{BagError, FixedState, HashBag};
use std::alloc::Global;

// Insertions into a bag at its limit, of an absent value or of a present one. A name is what a failure says.
const INSERTIONS: [&str; 5] = [
    "insert past the limit",
    "insert_many past the limit",
    "replace past the limit",
    "or_insert past the limit",
    "or_insert_many past the limit",
];

// Extends of such a bag: the call, and what a failure says.
const EXTENDS: [(&str, &str); 4] = [
    ("extend-1", "extend past the limit"),
    ("extend_many-1", "extend_many past the limit"),
    ("extend_refs-1", "extend_refs past the limit"),
    ("extend_refs_many-1", "extend_refs_many past the limit"),
];

fn is_past(answer: Result<usize, BagError>) -> bool {
    answer == Err(BagError::TooMany)
}

// Returns whether an insertion fails by the limit, and `false` for an unknown name.
fn insertion_fails(bag: &mut HashBag<u64>, call: &str) -> bool {
    match call {
        "insert past the limit" => is_past(bag.insert(1000)),
        "insert_many past the limit" => is_past(bag.insert_many(1, 1)),
        "replace past the limit" => is_past(bag.replace(1000)),
        "or_insert past the limit" => is_past(bag.entry(1000).or_insert()),
        "or_insert_many past the limit" => is_past(bag.entry(1000).or_insert_many(7)),
        _ => false,
    }
}

// Returns whether an extend fails by the limit, and `false` for an unknown name.
fn extend_fails(bag: &mut HashBag<u64>, call: &str) -> bool {
    match Single::of(call) {
        Some(single) => extended(bag, single) == Err(BagError::TooMany),
        None => false,
    }
}

fn all_fail(bag: &mut HashBag<u64>) -> Result<(), Wrong> {
    for call in &INSERTIONS {
        check(insertion_fails(bag, *call), *call)?;
    }
    for (call, wrong) in &EXTENDS {
        check(extend_fails(bag, *call), *wrong)?;
    }
    Ok(())
}

// Checks a new bag with a limit.
fn begins_with_limit(alloc: Global) -> Result<(), Wrong> {
    let bag: HashBag<u64> = HashBag::with_limit(alloc, FixedState::new(), 5);
    check((bag.limit(), bag.slots()) == (5, 0), "with_limit")
}

// Sets the limit to the total, and then below it, which fails unless the total is 0.
fn set_to_total(bag: &mut HashBag<u64>, len: usize) -> Result<(), Wrong> {
    check(bag.set_limit(len) == Ok(()), "set_limit")?;
    let below = bag.set_limit(0).is_err();
    check(below == (len > 0), "set_limit: below the total")
}

/// A bag at its limit, whether or not it has room: nothing is allocated before the total is tested.
pub fn limits(alloc: Global, bag: &mut HashBag<u64>) -> Result<(), Wrong> {
    begins_with_limit(alloc)?;
    let len = bag.len();
    set_to_total(bag, len)?;
    all_fail(bag)?;
    let kept = (bag.len(), bag.set_len(), bag.limit());
    check(kept == (len, len, len), "what is past the limit")
}
