//! The calls on two bags. Each has a function with no contract of its own, so that the proof carries nothing from one call to the next.
use hashbag::{BagError, HashBag};
use hashbag_ops::{contains_all, is_disjoint, keep_common, keep_most, merge, merge_ref, take_away};
use std::alloc::Global;
use std::hash::{BuildHasher, Hash};
use std::test::Fail;
use tests_kit::texts::debug_of;

/// Merges a bag into another.
pub fn merged<T: Eq + Hash + Drop, S: BuildHasher + Drop, S2: BuildHasher + Drop>(
    a: &mut HashBag<T, S>,
    b: HashBag<T, S2>,
) -> Result<(), BagError> {
    merge(a, b)
}

fn merged_ref<S: BuildHasher + Drop, S2: BuildHasher + Clone + Drop>(
    a: &mut HashBag<u64, S>,
    b: &HashBag<u64, S2>,
) -> Result<(), BagError> {
    merge_ref(a, b)
}

/// Keeps the greater counts of both bags.
pub fn kept_most<T: Eq + Hash + Drop, S: BuildHasher + Drop, S2: BuildHasher + Drop>(
    a: &mut HashBag<T, S>,
    b: HashBag<T, S2>,
) -> Result<(), BagError> {
    keep_most(a, b)
}

/// Keeps what both bags have.
pub fn kept_common<T: Eq + Hash + Drop, S: BuildHasher + Drop, S2: BuildHasher + Drop>(
    a: &mut HashBag<T, S>,
    b: &HashBag<T, S2>,
) {
    keep_common(a, b);
}

/// Takes out what the other has.
pub fn taken_away<T: Eq + Hash + Drop, S: BuildHasher + Drop, S2: BuildHasher + Drop>(
    a: &mut HashBag<T, S>,
    b: &HashBag<T, S2>,
) {
    take_away(a, b);
}

fn holds_all<S: BuildHasher + Drop, S2: BuildHasher + Drop>(
    a: &HashBag<u64, S>,
    b: &HashBag<u64, S2>,
) -> bool {
    contains_all(a, b)
}

fn has_none<S: BuildHasher + Drop, S2: BuildHasher + Drop>(
    a: &HashBag<u64, S>,
    b: &HashBag<u64, S2>,
) -> bool {
    is_disjoint(a, b)
}

// Returns the text of what a call returned in `Ok`, or of its error.
fn text_of(alloc: Global, answered: Result<(), BagError>) -> Result<String, Fail> {
    match answered {
        Ok(()) => debug_of(alloc, &()),
        Err(error) => debug_of(alloc, &error),
    }
}

/// Returns the text of what a call returns that only reads the second bag.
pub fn answer_beside<S: BuildHasher + Drop, S2: BuildHasher + Clone + Drop>(
    alloc: Global,
    call: &str,
    a: &mut HashBag<u64, S>,
    b: &HashBag<u64, S2>,
) -> Result<String, Fail> {
    match call {
        "merge_ref" => text_of(alloc, merged_ref(a, b)),
        "keep_common" => debug_of(alloc, &kept_common(a, b)),
        "take_away" => debug_of(alloc, &taken_away(a, b)),
        "contains_all" => debug_of(alloc, &holds_all(a, b)),
        "is_disjoint" => debug_of(alloc, &has_none(a, b)),
        _ => Err(Fail::new(format_args!("no such call: {call}"))),
    }
}

/// Returns the text of what a call on two bags returns.
pub fn answer<S: BuildHasher + Drop, S2: BuildHasher + Clone + Drop>(
    alloc: Global,
    call: &str,
    a: &mut HashBag<u64, S>,
    b: HashBag<u64, S2>,
) -> Result<String, Fail> {
    match call {
        "merge" => text_of(alloc, merged(a, b)),
        "keep_most" => text_of(alloc, kept_most(a, b)),
        _ => answer_beside(alloc, call, a, &b),
    }
}
