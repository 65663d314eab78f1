//! Which instances stay: those of the first bag, and of the second only if the first had none.
use crate::tests::calls::{kept_common, kept_most, merged, taken_away};
use hashbag::{BagError, HashBag};
use hashbag_ops::merge_ref;
use std::alloc::Global;
use std::hash::BuildHasher;
use std::test::Fail;
use tests_kit::texts::{debug_of, halves, is_text, is_text_of};
use tests_kit::{IdentityState, OneState, Tagged, rows_of};

// A call on a bag with the key 1 twice, tag 10, and the key 2 once, tag 11, and one with the key 1 three times, tag 20, and the key 3
// once, tag 21; key, tag and count of what is left.
const ROWS: &str = "
    merge | [(1, 10, 5), (2, 11, 1), (3, 21, 1)]
    merge_ref | [(1, 10, 5), (2, 11, 1), (3, 21, 1)]
    keep_most | [(1, 10, 3), (2, 11, 1), (3, 21, 1)]
    keep_common | [(1, 10, 2)]
    take_away | [(2, 11, 1)]";

// Adds a value with this key and tag, so often.
fn add<S: BuildHasher + Drop>(
    bag: &mut HashBag<Tagged, S>,
    key: u64,
    tag: u64,
    n: usize,
) -> Result<usize, BagError> {
    bag.insert_many(Tagged { key, tag }, n)
}

// A bag of values with these keys and tags, each so often.
fn tagged<S: BuildHasher + Default + Drop>(
    alloc: Global,
    values: &[(u64, u64, usize)],
) -> Result<HashBag<Tagged, S>, Fail> {
    let mut bag = HashBag::default_in(alloc);
    for (key, tag, n) in values {
        add(&mut bag, *key, *tag, *n)?;
    }
    Ok(bag)
}

// Keys, tags and counts of a bag.
fn listed<S: BuildHasher + Drop>(
    alloc: Global,
    bag: &HashBag<Tagged, S>,
) -> Result<Vec<(u64, u64, usize)>, Fail> {
    let mut items = Vec::new(alloc);
    for (value, count) in bag.set_iter() {
        items.push((value.key, value.tag, count))?;
    }
    Ok(items)
}

// The items of a bag in ascending order, as a text.
fn text_of<S: BuildHasher + Drop>(alloc: Global, bag: &HashBag<Tagged, S>) -> Result<String, Fail> {
    let mut items = listed(alloc, bag)?;
    items.sort_unstable();
    debug_of(alloc, &items)
}

fn merged_ref<S: BuildHasher + Drop, S2: BuildHasher + Clone + Drop>(
    a: &mut HashBag<Tagged, S>,
    b: &HashBag<Tagged, S2>,
) -> Result<(), BagError> {
    merge_ref(a, b)
}

fn make<S: BuildHasher + Drop, S2: BuildHasher + Clone + Drop>(
    call: &str,
    a: &mut HashBag<Tagged, S>,
    b: HashBag<Tagged, S2>,
) -> Result<(), BagError> {
    match call {
        "merge" => merged(a, b),
        "merge_ref" => merged_ref(a, &b),
        "keep_most" => kept_most(a, b),
        "keep_common" => Ok(kept_common(a, &b)),
        _ => Ok(taken_away(a, &b)),
    }
}

// What a call leaves.
fn left_by(alloc: Global, call: &str) -> Result<String, Fail> {
    let mut a: HashBag<Tagged, OneState> = tagged(alloc, &[(1, 10, 2), (2, 11, 1)])?;
    let b: HashBag<Tagged, IdentityState> = tagged(alloc, &[(1, 20, 3), (3, 21, 1)])?;
    make(call, &mut a, b)?;
    text_of(alloc, &a)
}

fn is_left(alloc: Global, row: &str) -> Result<(), Fail> {
    let (call, wanted) = halves(row, "|")?;
    is_text(left_by(alloc, call)?.as_str(), wanted)
}

#[test]
fn instances_that_stay(rt: HostRuntime) -> Result<(), Fail> {
    for row in rows_of(rt.alloc(), ROWS)? {
        row.tested(is_left(rt.alloc(), row.text))?;
    }
    Ok(())
}

// Keys, tags and counts after a merge into a full bag, with the keys 1 to 12 and the tag 10, of the key 12 three times, tag 20, and the
// key 13 once, tag 21: the values that were there go into other slots.
const MOVED: &str =
    "[(1, 10, 1), (2, 10, 1), (3, 10, 1), (4, 10, 1), (5, 10, 1), (6, 10, 1), (7, 10, 1), (8, 10, 1), (9, 10, 1), \
    (10, 10, 1), (11, 10, 1), (12, 10, 4), (13, 21, 1)]";

#[test]
fn instances_in_other_slots(rt: HostRuntime) -> Result<(), Fail> {
    let mut full: HashBag<Tagged, OneState> = HashBag::default_in(rt.alloc());
    for key in 1..13 {
        add(&mut full, key, 10, 1)?;
    }
    let more: HashBag<Tagged, IdentityState> = tagged(rt.alloc(), &[(12, 20, 3), (13, 21, 1)])?;
    merged(&mut full, more)?;
    is_text_of("merge", text_of(rt.alloc(), &full)?.as_str(), MOVED)
}
