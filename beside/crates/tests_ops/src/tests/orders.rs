//! The pairs of a bag in order. What is wanted was found by Python's `Counter`: `sorted(counter.items())`, and the first k of
//! `sorted(counter.items(), key=lambda pair: (-pair[1], pair[0]))`.
use crate::tests::bags::{bag_of, text_of_list, thirds};
use hashbag::{FixedState, HashBag};
use hashbag_ops::{max_count, most_common, sorted};
use std::alloc::Global;
use std::fmt::Debug;
use std::hash::{BuildHasher, Hash};
use std::test::Fail;
use tests_kit::calls::insert;
use tests_kit::states::CountingState;
use tests_kit::texts::{count, debug_of, halves, is_text};
use tests_kit::{IdentityState, OneState, ParityState, rows_of};

// `-` for all pairs, values in ascending order, or how many of the most common; the bag; the pairs.
const ROWS: &str = "
    - | |
    - | 5:2 | 5:2
    - | 6:1 5:2 | 5:2 6:1
    - | 9:1 2:2 7:1 3:2 5:2 1:1 | 1:1 2:2 3:2 5:2 7:1 9:1
    - | 1..=25 | 1..=25
    - | 30:1 26..=29 1..=25 12:1 29:2 | 1..=11 12:2 13..=28 29:3 30:1
    - | 18446744073709551615:1 0:1 9223372036854775808:3 | 0:1 9223372036854775808:3 18446744073709551615:1
    - | 4:18446744073709551610 2:5 | 2:5 4:18446744073709551610
    0 | |
    3 | |
    0 | 5:2 |
    1 | 5:2 | 5:2
    1 | 6:1 5:2 | 5:2
    2 | 6:1 5:2 | 5:2 6:1
    3 | 6:1 5:2 | 5:2 6:1
    0 | 9:1 2:2 7:1 3:2 5:2 1:1 |
    1 | 9:1 2:2 7:1 3:2 5:2 1:1 | 2:2
    3 | 9:1 2:2 7:1 3:2 5:2 1:1 | 2:2 3:2 5:2
    4 | 9:1 2:2 7:1 3:2 5:2 1:1 | 2:2 3:2 5:2 1:1
    5 | 9:1 2:2 7:1 3:2 5:2 1:1 | 2:2 3:2 5:2 1:1 7:1
    6 | 9:1 2:2 7:1 3:2 5:2 1:1 | 2:2 3:2 5:2 1:1 7:1 9:1
    7 | 9:1 2:2 7:1 3:2 5:2 1:1 | 2:2 3:2 5:2 1:1 7:1 9:1
    18446744073709551615 | 9:1 2:2 7:1 3:2 5:2 1:1 | 2:2 3:2 5:2 1:1 7:1 9:1
    1 | 1..=25 | 1:1
    10 | 1..=25 | 1..=10
    24 | 1..=25 | 1..=24
    25 | 1..=25 | 1..=25
    26 | 1..=25 | 1..=25
    5 | 1:1 2:2 3:3 4:4 5:5 6:6 7:7 8:8 9:9 10:10 11:11 12:12 | 12:12 11:11 10:10 9:9 8:8
    5 | 1:12 2:11 3:10 4:9 5:8 6:7 7:6 8:5 9:4 10:3 11:2 12:1 | 1:12 2:11 3:10 4:9 5:8
    13 | 1..=40 3..=38 20..=22 9:1 | 9:3 20:3 21:3 22:3 3:2 4:2 5:2 6:2 7:2 8:2 10:2 11:2 12:2
    4 | 30:1 26..=29 1..=25 12:1 29:2 | 29:3 12:2 1:1 2:1
    3 | 8:3 1:4 6:3 2:5 4:1 7:3 | 2:5 1:4 6:3
    4 | 8:3 1:4 6:3 2:5 4:1 7:3 | 2:5 1:4 6:3 7:3
    1 | 4:18446744073709551610 2:5 | 4:18446744073709551610
    1 | 4:7 18446744073709551615:18446744073709551608 | 18446744073709551615:18446744073709551608";

// The same of the words of a text.
const WORDS: &str = r#"
    - | the cat sat on the mat the | [("cat", 1), ("mat", 1), ("on", 1), ("sat", 1), ("the", 3)]
    0 | the cat sat on the mat the | []
    2 | the cat sat on the mat the | [("the", 3), ("cat", 1)]
    9 | the cat sat on the mat the | [("the", 3), ("cat", 1), ("mat", 1), ("on", 1), ("sat", 1)]
    2 | b a c b a c | [("a", 2), ("b", 2)]"#;

// A bag, and how often its most common values occur.
const GREATEST: &str = "
    | 0
    5:2 | 2
    6:1 5:2 | 2
    9:1 2:2 7:1 3:2 5:2 1:1 | 2
    1..=25 | 1
    30:1 26..=29 1..=25 12:1 29:2 | 3
    4:18446744073709551610 2:5 | 18446744073709551610
    1:18446744073709551615 | 18446744073709551615";

// The text of all pairs, values in ascending order.
fn rising<T: Ord + Hash + Debug + Drop, S: BuildHasher + Drop>(
    alloc: Global,
    bag: &HashBag<T, S>,
) -> Result<String, Fail> {
    let pairs = sorted(alloc, bag)?;
    debug_of(alloc, &pairs)
}

// The text of the `k` most common values.
fn most_common_text<T: Ord + Hash + Debug + Drop, S: BuildHasher + Drop>(
    alloc: Global,
    bag: &HashBag<T, S>,
    k: usize,
) -> Result<String, Fail> {
    let pairs = most_common(alloc, bag, k)?;
    debug_of(alloc, &pairs)
}

// The text of what the word of a row asks for.
fn ordered<T: Ord + Hash + Debug + Drop, S: BuildHasher + Drop>(
    alloc: Global,
    word: &str,
    bag: &HashBag<T, S>,
) -> Result<String, Fail> {
    if word == "-" {
        return rising(alloc, bag);
    }
    most_common_text(alloc, bag, count(word)?)
}

fn is_ordered<S: BuildHasher + Default + Drop>(alloc: Global, row: &str) -> Result<(), Fail> {
    let (word, bag, wanted) = thirds(row)?;
    let bag: HashBag<u64, S> = bag_of(alloc, bag)?;
    let got = ordered(alloc, word, &bag)?;
    is_text(got.as_str(), text_of_list(alloc, wanted)?.as_str())
}

fn are_ordered<S: BuildHasher + Default + Drop>(alloc: Global) -> Result<(), Fail> {
    for row in rows_of(alloc, ROWS)? {
        row.tested(is_ordered::<S>(alloc, row.text))?;
    }
    Ok(())
}

#[test]
fn numbers_in_order(rt: HostRuntime) -> Result<(), Fail> {
    are_ordered::<FixedState>(rt.alloc())?;
    are_ordered::<OneState>(rt.alloc())?;
    are_ordered::<IdentityState>(rt.alloc())?;
    are_ordered::<ParityState>(rt.alloc())
}

fn greatest<S: BuildHasher + Drop>(bag: &HashBag<u64, S>) -> usize {
    max_count(bag)
}

fn is_greatest<S: BuildHasher + Default + Drop>(alloc: Global, row: &str) -> Result<(), Fail> {
    let (bag, wanted) = halves(row, "|")?;
    let bag: HashBag<u64, S> = bag_of(alloc, bag)?;
    is_text(debug_of(alloc, &greatest(&bag))?.as_str(), wanted)
}

fn are_greatest<S: BuildHasher + Default + Drop>(alloc: Global) -> Result<(), Fail> {
    for row in rows_of(alloc, GREATEST)? {
        row.tested(is_greatest::<S>(alloc, row.text))?;
    }
    Ok(())
}

#[test]
fn greatest_counts(rt: HostRuntime) -> Result<(), Fail> {
    are_greatest::<FixedState>(rt.alloc())?;
    are_greatest::<OneState>(rt.alloc())?;
    are_greatest::<IdentityState>(rt.alloc())
}

// The bag of the words of a text.
fn bag_of_words(alloc: Global, text: &str) -> Result<HashBag<&str>, Fail> {
    let mut bag = HashBag::new(alloc);
    for word in text.split_whitespace() {
        insert(&mut bag, word)?;
    }
    Ok(bag)
}

fn are_words_ordered(alloc: Global, row: &str) -> Result<(), Fail> {
    let (word, text, wanted) = thirds(row)?;
    let bag = bag_of_words(alloc, text)?;
    is_text(ordered(alloc, word, &bag)?.as_str(), wanted)
}

#[test]
fn words_in_order(rt: HostRuntime) -> Result<(), Fail> {
    for row in rows_of(rt.alloc(), WORDS)? {
        row.tested(are_words_ordered(rt.alloc(), row.text))?;
    }
    Ok(())
}

fn hashed(bag: &HashBag<u64, CountingState>) -> u64 {
    bag.hasher().hashed()
}

#[test]
fn no_hash_in_an_order(rt: HostRuntime) -> Result<(), Fail> {
    let bag: HashBag<u64, CountingState> = bag_of(rt.alloc(), "1..=25 7:3")?;
    let before = hashed(&bag);
    for word in ["-", "10", "25"] {
        ordered(rt.alloc(), word, &bag)?;
    }
    if greatest(&bag) != 4 || hashed(&bag) != before {
        return Err(Fail::new(format_args!("an order hashes")));
    }
    Ok(())
}
