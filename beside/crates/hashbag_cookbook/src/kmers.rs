//! Counts the stretches of three letters of a DNA sequence.
use anyhow::Result;
use hashbag::HashBag;
use hashbag::ops::sorted;
use std::alloc::Global;
use std::io::Write;

const DNA: &str = "GATTACAGATTACA";

/// Writes how many stretches there are, and those that occur more than once.
pub fn show<W: Write>(alloc: Global, out: &mut W) -> Result<()> {
    writeln!(out, "kmers")?;
    let mut kmers: HashBag<&[u8]> = HashBag::new(alloc);
    for kmer in DNA.as_bytes().windows(3) {
        kmers.insert(kmer)?;
    }
    writeln!(
        out,
        "{} stretches, {} distinct",
        kmers.len(),
        kmers.set_len()
    )?;
    for (kmer, count) in sorted(alloc, &kmers)? {
        if count > 1 {
            writeln!(out, "{} {count}", std::str::from_utf8(*kmer)?)?;
        }
    }
    Ok(())
}
