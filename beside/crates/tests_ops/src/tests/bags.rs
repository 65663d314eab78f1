//! Bags of numbers from rows of text, and their text.
use hashbag::HashBag;
use std::alloc::Global;
use std::hash::BuildHasher;
use std::test::Fail;
use tests_kit::calls::bag_of_counts;
use tests_kit::texts::{counts, debug_of, halves};

/// The three parts of a row.
pub fn thirds(row: &str) -> Result<(&str, &str, &str), Fail> {
    let (first, rest) = halves(row, "|")?;
    let (second, third) = halves(rest, "|")?;
    Ok((first, second, third))
}

/// The text of a list as `5:2 6..=8`, as `Debug` writes it.
pub fn text_of_list(alloc: Global, text: &str) -> Result<String, Fail> {
    debug_of(alloc, &counts(alloc, text)?)
}

/// The bag with the counts of a text.
pub fn bag_of<S: BuildHasher + Default + Drop>(
    alloc: Global,
    text: &str,
) -> Result<HashBag<u64, S>, Fail> {
    bag_of_counts(alloc, S::default(), counts(alloc, text)?.as_slice())
}

// The values of a bag with their counts.
fn listed<S: BuildHasher + Drop>(
    alloc: Global,
    bag: &HashBag<u64, S>,
) -> Result<Vec<(u64, usize)>, Fail> {
    let mut pairs = Vec::new(alloc);
    for (value, count) in bag.set_iter() {
        pairs.push((*value, count))?;
    }
    Ok(pairs)
}

/// The text of a bag's counts, values in ascending order.
pub fn counts_of<S: BuildHasher + Drop>(
    alloc: Global,
    bag: &HashBag<u64, S>,
) -> Result<String, Fail> {
    let mut pairs = listed(alloc, bag)?;
    pairs.sort_unstable();
    debug_of(alloc, &pairs)
}
