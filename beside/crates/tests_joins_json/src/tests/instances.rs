//! Which instances joins give.
use hashbag::HashBag;
use std::alloc::Global;
use std::hash::BuildHasher;
use std::test::Fail;
use tests_kit::texts::{debug_of, is_text};
use tests_kit::{IdentityState, OneState, Tagged};

// A key, a tag, and how often the value with both is there.
type Entry = (u64, u64, usize);

// A bag of these values.
fn tagged<S: BuildHasher + Default + Drop>(
    alloc: Global,
    values: &[Entry],
) -> Result<HashBag<Tagged, S>, Fail> {
    let mut bag = HashBag::default_in(alloc);
    for (key, tag, n) in values {
        let (key, tag) = (*key, *tag);
        bag.insert_many(Tagged { key, tag }, *n)?;
    }
    Ok(bag)
}

// The key, the tag and both counts of each item of an outer join, in its order.
fn joined<S: BuildHasher + Drop, S2: BuildHasher + Drop>(
    alloc: Global,
    a: &HashBag<Tagged, S>,
    b: &HashBag<Tagged, S2>,
) -> Result<Vec<(u64, u64, usize, usize)>, Fail> {
    let mut items = Vec::new(alloc);
    for (value, first, second) in a.outer_join(b) {
        items.push((value.key, value.tag, first, second))?;
    }
    Ok(items)
}

// The items of an outer join as text, sorted if that is asked for.
fn text_of<S: BuildHasher + Drop, S2: BuildHasher + Drop>(
    alloc: Global,
    a: &HashBag<Tagged, S>,
    b: &HashBag<Tagged, S2>,
    sorts: bool,
) -> Result<String, Fail> {
    let mut items = joined(alloc, a, b)?;
    if sorts {
        items.sort_unstable();
    }
    Ok(debug_of(alloc, &items)?)
}

// Two bags, whether the items of their outer join are sorted, and the items.
const JOINS: [(&[Entry], &[Entry], bool, &str); 2] = [
    (
        &[(1, 10, 2)],
        &[(1, 20, 1), (2, 21, 1)],
        false,
        "[(1, 10, 2, 1), (2, 21, 0, 1)]",
    ),
    (
        &[(1, 20, 1), (2, 21, 1)],
        &[(1, 10, 2)],
        true,
        "[(1, 20, 1, 2), (2, 21, 1, 0)]",
    ),
];

// The items of the outer join of these values under these states.
fn join_of<S: BuildHasher + Default + Drop, S2: BuildHasher + Default + Drop>(
    alloc: Global,
    a: &[Entry],
    b: &[Entry],
    sorts: bool,
) -> Result<String, Fail> {
    let a: HashBag<Tagged, S> = tagged(alloc, a)?;
    let b: HashBag<Tagged, S2> = tagged(alloc, b)?;
    text_of(alloc, &a, &b, sorts)
}

// A value of both bags is given as the instance of the first, and one of the second bag alone after all others.
#[test]
fn instances_of_outer_joins(rt: HostRuntime) -> Result<(), Fail> {
    for (a, b, sorts, wanted) in &JOINS {
        let one = join_of::<OneState, IdentityState>(rt.alloc(), a, b, *sorts)?;
        is_text(one.as_str(), wanted)?;
        let other = join_of::<IdentityState, OneState>(rt.alloc(), a, b, *sorts)?;
        is_text(other.as_str(), wanted)?;
    }
    Ok(())
}
