//! Saves a bag of values of an own type as JSON and loads it again.
ghost use Rattle.std.proofs.lemmas.Slice.Eq.{bytes_eq-Decides};
ghost use Rattle.std.specs.Prelude.{List, Bool, true, refl, string_bytes};

use anyhow::Result;
use hashbag::{HashBag, ItemError, JsonText};
use serde_json::Value;
use std::alloc::{AllocError, Global};
use std::io::Write;

/// An article of a shop.
#[derive(PartialEq, Eq, PartialOrd, Ord, Hash, Drop)]
pub struct Article {
    /// Its name, by which articles differ.
    pub name: String,
}

// An article is written as its name, and each text is the name of one.
impl JsonText for Article {
    ghost text_of = { λ x. string_bytes x.name };

    ghost has_text = { λ t. true };

    fn to_text(&self, alloc: Global) -> Result<String, AllocError> {
        self.name.as_str().to_string(alloc)
    }

    fn from_text(alloc: Global, text: &str) -> Result<Article, ItemError> {
        let name = text.to_string(alloc)?;
        Ok(Article { name })
    }

    ghost same = { λ x y. bytes_eq-Decides (string_bytes x.name) (string_bytes y.name) };

    ghost has_value = { λ s e. (record { name = s }, refl) };
}

/// Writes a bag as it is saved, and how often an article is in the bag that is loaded.
pub fn show<W: Write>(alloc: Global, out: &mut W) -> Result<()> {
    writeln!(out, "own_types")?;
    let mut bag: HashBag<Article> = HashBag::new(alloc);
    for name in ["nut", "bolt", "nut"] {
        let name = name.to_string(alloc)?;
        bag.insert(Article { name })?;
    }
    let text = bag.to_value(alloc)?.to_string(alloc)?;
    writeln!(out, "{text}")?;
    let tree = Value::from_str(alloc, text.as_str())?;
    let again: HashBag<Article> = HashBag::from_value(alloc, &tree)?;
    writeln!(out, "{} equal: {}", again.len(), again == bag)?;
    Ok(())
}
