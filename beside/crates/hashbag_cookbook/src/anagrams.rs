//! Groups the words of a text that have the same letters.
use anyhow::Result;
use hashbag::HashBag;
use hashbag::ops::sorted;
use std::alloc::Global;
use std::collections::BTreeMap;
use std::io::Write;

const TEXT: &str = "listen stale part silent dog least trap enlist";

// Each letter of a word with its count, in ascending order. A bag can't be the key of a map, but this list can: equal bags have equal lists.
fn letters_of(alloc: Global, word: &str) -> Result<Vec<(char, usize)>> {
    let bag: HashBag<char> = HashBag::from_iter(alloc, word.chars())?;
    let mut letters = Vec::new(alloc);
    for (letter, count) in sorted(alloc, &bag)? {
        letters.push((*letter, count))?;
    }
    Ok(letters)
}

/// Writes a line for each group, in the order of their letters.
pub fn show<W: Write>(alloc: Global, out: &mut W) -> Result<()> {
    writeln!(out, "anagrams")?;
    let mut groups = BTreeMap::new(alloc);
    for word in TEXT.split_whitespace() {
        let letters = letters_of(alloc, word)?;
        let group = groups.entry(letters)?.or_insert(String::new(alloc));
        write!(group, " {word}")?;
    }
    for group in groups.values() {
        writeln!(out, "{}", group.trim_start())?;
    }
    Ok(())
}
