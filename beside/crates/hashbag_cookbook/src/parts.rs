//! Counts the parts of a text one by one and merges the counts.
use anyhow::Result;
use hashbag::{BagError, HashBag};
use hashbag::ops::{merge, sorted};
use std::alloc::Global;
use std::io::Write;

const PARTS: [&str; 3] = ["red blue red", "blue green", "red green green blue"];

fn count(alloc: Global, part: &str) -> Result<HashBag<String>, BagError> {
    let mut words = HashBag::new(alloc);
    for word in part.split_whitespace() {
        words.insert_key(word)?;
    }
    Ok(words)
}

/// Writes how many words each part has, and the counts of all parts together.
pub fn show<W: Write>(alloc: Global, out: &mut W) -> Result<()> {
    writeln!(out, "parts")?;
    let mut whole: HashBag<String> = HashBag::new(alloc);
    for part in PARTS {
        let words = count(alloc, part)?;
        writeln!(out, "{} words", words.len())?;
        merge(&mut whole, words)?;
    }
    for (word, count) in sorted(alloc, &whole)? {
        writeln!(out, "{count} {word}")?;
    }
    Ok(())
}
