//! Lists the ten most common words of a text.
use anyhow::Result;
use hashbag::HashBag;
use hashbag::ops::most_common;
use std::alloc::Global;
use std::io::Write;

const TEXT: &str = "\
the cat sat on the mat and the dog sat on the cat
the hen saw the cat and the dog and ran to the barn
a fox saw the hen and the barn and sat on a mat
";

/// Writes a line for each word. Words that occur equally often are in the order of their letters.
pub fn show<W: Write>(alloc: Global, out: &mut W) -> Result<()> {
    writeln!(out, "top_ten")?;
    let mut words: HashBag<String> = HashBag::new(alloc);
    for word in TEXT.split_whitespace() {
        words.insert_key(word)?;
    }
    for (word, count) in most_common(alloc, &words, 10)? {
        writeln!(out, "{count} {word}")?;
    }
    Ok(())
}
