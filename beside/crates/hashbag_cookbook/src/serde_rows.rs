//! Saves a bag of any type of `serde` as rows of a value and its count, and loads it again.
use anyhow::Result;
use hashbag::HashBag;
use hashbag::ops::sorted;
use serde::{Deserialize, Serialize};
use std::alloc::Global;
use std::io::Write;

/// A screw, by its size in millimetres.
#[derive(Clone, Copy, PartialEq, Eq, PartialOrd, Ord, Hash, Serialize, Deserialize)]
pub struct Screw {
    /// The diameter.
    pub wide: u32,
    /// The length.
    pub long: u32,
}

/// Writes a bag as it is saved, and whether the bag that is loaded equals it.
pub fn show<W: Write>(alloc: Global, out: &mut W) -> Result<()> {
    writeln!(out, "serde_rows")?;
    let mut bag: HashBag<Screw> = HashBag::new(alloc);
    for (wide, long) in [(4, 40), (3, 16), (4, 40)] {
        bag.insert(Screw { wide, long })?;
    }
    let text = serde_json::to_string(alloc, &sorted(alloc, &bag)?)?;
    writeln!(out, "{text}")?;
    let rows: Vec<(Screw, usize)> = serde_json::from_str(alloc, text.as_str())?;
    let again: HashBag<Screw> = HashBag::from_counts(alloc, rows.into_iter())?;
    writeln!(out, "equal: {}", again == bag)?;
    Ok(())
}
