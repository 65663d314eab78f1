//! Compares what was ordered with what was delivered.
use anyhow::Result;
use hashbag::{BagError, HashBag};
use std::alloc::Global;
use std::io::Write;

const ORDERED: &str = "apple apple fig pear plum plum";

const DELIVERED: &str = "apple kiwi pear pear plum plum";

fn bag_of(alloc: Global, text: &str) -> Result<HashBag<String>, BagError> {
    let mut bag = HashBag::new(alloc);
    for word in text.split_whitespace() {
        bag.insert_key(word)?;
    }
    Ok(bag)
}

// Writes a line for each value that the first bag has more often, and how many more. A join is in no particular order, so it is sorted.
fn write_excess<W: Write>(
    alloc: Global,
    out: &mut W,
    what: &str,
    first: &HashBag<String>,
    second: &HashBag<String>,
) -> Result<()> {
    let mut excess: Vec<(&String, usize)> = first.difference(second).collect(alloc)?;
    excess.sort_unstable();
    for (article, n) in excess {
        writeln!(out, "{what} {n} {article}")?;
    }
    Ok(())
}

// Writes a line for each value of either bag with both counts.
fn write_both<W: Write>(
    alloc: Global,
    out: &mut W,
    first: &HashBag<String>,
    second: &HashBag<String>,
) -> Result<()> {
    let mut both: Vec<(&String, usize, usize)> = first.outer_join(second).collect(alloc)?;
    both.sort_unstable();
    for (article, ordered, delivered) in both {
        writeln!(out, "{article}: {ordered} ordered, {delivered} delivered")?;
    }
    Ok(())
}

/// Writes what is missing, what is too many, and both counts of each article.
pub fn show<W: Write>(alloc: Global, out: &mut W) -> Result<()> {
    writeln!(out, "deliveries")?;
    let ordered = bag_of(alloc, ORDERED)?;
    let delivered = bag_of(alloc, DELIVERED)?;
    write_excess(alloc, out, "missing", &ordered, &delivered)?;
    write_excess(alloc, out, "too many", &delivered, &ordered)?;
    write_both(alloc, out, &ordered, &delivered)
}
