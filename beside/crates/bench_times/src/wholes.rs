//! What is measured of whole bags, and of bags of texts.
use crate::runs::{filled, now, say, since};
use crate::values::{counts, distinct, text};
use hashbag::{BagError, HashBag};
use hashbag_ops::{merge, most_common};
use std::time::Duration;

fn join(first: &HashBag<u64>, second: &HashBag<u64>) -> u64 {
    let mut sum = 0u64;
    for (value, one, other) in first.outer_join(second) {
        sum = sum.wrapping_add(value.wrapping_mul((one as u64) ^ (other as u64) << 1));
    }
    sum
}

/// Two bags that have half of their values in common are joined, and then one is merged into the other.
pub fn of_two(rt: &HostRuntime, many: u64, times: u64) -> anyhow::Result<()> {
    let of_first = distinct(rt.alloc(), 0, many, 1)?;
    let of_second = distinct(rt.alloc(), many / 2, many, 1)?;
    let done = many.wrapping_mul(times);
    let (mut sum, mut values) = (0u64, 0u64);
    let (mut joins, mut merges) = (Duration::ZERO, Duration::ZERO);
    for _ in 0..times {
        let mut first = filled(rt, of_first.as_slice())?;
        let second = filled(rt, of_second.as_slice())?;
        let start = now(rt)?;
        sum = sum.wrapping_add(join(&first, &second));
        joins = joins.saturating_add(since(rt, start)?);
        let start = now(rt)?;
        merge(&mut first, second)?;
        merges = merges.saturating_add(since(rt, start)?);
        values = values.wrapping_add(first.set_len() as u64);
    }
    say(rt, "outer_join", many, done.wrapping_mul(2), joins, sum)?;
    say(rt, "merge", many, done, merges, values)
}

// Inserts each value into another bag, in the order of a walk.
fn copy(into: &mut HashBag<u64>, from: &HashBag<u64>) -> Result<(), BagError> {
    for (value, count) in from.set_iter() {
        into.insert_many(*value, count)?;
    }
    Ok(())
}

/// The values of one bag are inserted into another by a walk. Then the other bag is dropped.
pub fn of_copies(rt: &HostRuntime, many: u64) -> anyhow::Result<()> {
    let bag = filled(rt, distinct(rt.alloc(), 0, many, 1)?.as_slice())?;
    let mut other = HashBag::new(rt.alloc());
    let start = now(rt)?;
    copy(&mut other, &bag)?;
    let sum = other.set_len() as u64;
    say(rt, "copy", many, many, since(rt, start)?, sum)?;
    let start = now(rt)?;
    drop(other);
    say(rt, "drop", many, many, since(rt, start)?, sum)
}

/// A bag is cloned, and the clone is dropped, again and again.
pub fn of_clones(rt: &HostRuntime, many: u64, times: u64) -> anyhow::Result<()> {
    let bag = filled(rt, distinct(rt.alloc(), 0, many, 1)?.as_slice())?;
    let (mut sum, mut time) = (0u64, Duration::ZERO);
    for _ in 0..times {
        let start = now(rt)?;
        let other = bag.clone()?;
        time = time.saturating_add(since(rt, start)?);
        sum = sum.wrapping_add(other.set_len() as u64);
    }
    say(rt, "clone", many, many.wrapping_mul(times), time, sum)
}

// Inserts each of them as often as its count.
fn fill_counts(bag: &mut HashBag<u64>, values: &[(u64, usize)]) -> Result<(), BagError> {
    for (value, count) in values {
        bag.insert_many(*value, *count)?;
    }
    Ok(())
}

/// The ten most common of many values.
pub fn of_commonest(rt: &HostRuntime, many: u64) -> anyhow::Result<()> {
    let mut bag = HashBag::new(rt.alloc());
    fill_counts(&mut bag, counts(rt.alloc(), many)?.as_slice())?;
    let start = now(rt)?;
    let first = most_common(rt.alloc(), &bag, 10)?;
    let mut sum = 0u64;
    for (value, count) in first {
        sum = sum
            .wrapping_mul(31)
            .wrapping_add(value.wrapping_mul(count as u64));
    }
    say(rt, "most_common", many, many, since(rt, start)?, sum)
}

// Counts the words of a text, each of which becomes a `String` once.
fn count_words(bag: &mut HashBag<String>, text: &str) -> Result<(), BagError> {
    for word in text.split_whitespace() {
        bag.insert_key(word)?;
    }
    Ok(())
}

/// The words of a text.
pub fn of_texts(rt: &HostRuntime, many: u64) -> anyhow::Result<()> {
    let words = text(rt.alloc(), many)?;
    let mut bag = HashBag::new(rt.alloc());
    let start = now(rt)?;
    count_words(&mut bag, words.as_str())?;
    let sum = bag.set_len() as u64;
    say(rt, "texts", many, many, since(rt, start)?, sum)
}
