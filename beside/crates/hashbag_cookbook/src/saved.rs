//! Saves a bag as JSON and loads it again. A faulty file gives a message.
use anyhow::Result;
use hashbag::HashBag;
use serde_json::Value;
use std::alloc::Global;
use std::io::Write;

// The contents of files: the second has a negative count, and the third a number where a word should be.
const FILES: [&str; 3] = [
    "[[\"nut\",5],[\"bolt\",2],[\"nut\",1]]",
    "[[\"nut\",5],[\"bolt\",-2]]",
    "[[7,5],[\"bolt\",2]]",
];

fn save(alloc: Global, bag: &HashBag<String>) -> Result<String> {
    Ok(bag.to_value(alloc)?.to_string(alloc)?)
}

fn load(alloc: Global, text: &str) -> Result<HashBag<String>> {
    let tree = Value::from_str(alloc, text)?;
    let bag = HashBag::from_value(alloc, &tree)?;
    Ok(bag)
}

/// Writes a bag as it is saved, whether it is loaded as an equal one, and what is loaded from each file.
pub fn show<W: Write>(alloc: Global, out: &mut W) -> Result<()> {
    writeln!(out, "saved")?;
    let mut bag: HashBag<String> = HashBag::new(alloc);
    for word in ["to", "be", "or", "not", "to", "be"] {
        bag.insert_key(word)?;
    }
    let text = save(alloc, &bag)?;
    let again = load(alloc, text.as_str())?;
    writeln!(out, "{text} equal: {}", again == bag)?;
    for file in FILES {
        match load(alloc, file) {
            Ok(loaded) => {
                let text = save(alloc, &loaded)?;
                writeln!(out, "{file} becomes {text}")?;
            }
            Err(error) => writeln!(out, "{file} fails: {error}")?,
        }
    }
    Ok(())
}
