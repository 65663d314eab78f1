//! Ranks the candidates of a vote. Candidates with equally many votes share a place.
use anyhow::Result;
use hashbag::HashBag;
use hashbag::ops::most_common;
use std::alloc::Global;
use std::io::Write;

const VOTES: &str = "Ann Bob Cyd Ann Bob Dan Cyd Bob Ann";

/// Writes how many votes there were, and for each candidate a line with the place, the name and the votes.
pub fn show<W: Write>(alloc: Global, out: &mut W) -> Result<()> {
    writeln!(out, "votes")?;
    let mut votes: HashBag<String> = HashBag::new(alloc);
    for name in VOTES.split_whitespace() {
        votes.insert_key(name)?;
    }
    writeln!(
        out,
        "{} votes for {} candidates",
        votes.len(),
        votes.set_len()
    )?;
    let mut rank = 0usize;
    let mut place = 0;
    let mut last = 0;
    for (name, count) in most_common(alloc, &votes, votes.set_len())? {
        rank = rank.saturating_add(1);
        if count != last {
            place = rank;
            last = count;
        }
        writeln!(out, "{place} {name} {count}")?;
    }
    Ok(())
}
