//! Bags of texts, whose clones are allocated too, and which may be inserted by keys.
use crate::checks::{Refusals, Wrong, check};
use crate::counts::tables_of;
use hashbag::HashBag;
use std::alloc::{AllocError, Global};

fn names(alloc: Global) -> Result<(String, String), AllocError> {
    Ok((
        String::from_str(alloc, "Einar")?,
        String::from_str(alloc, "Harald")?,
    ))
}

// Checks that after an extend by Einar, Harald and Einar all are there, or those before the one that failed.
fn has_names(bag: &HashBag<String>, counts: (usize, usize), is_done: bool) -> Result<(), Wrong> {
    if is_done {
        check(counts == (2, 1), "names: the counts")?;
    } else {
        let before = [(0, 0), (1, 0), (1, 1)];
        check(before.contains(&counts), "names: those before a refusal")?;
    }
    check(
        bag.len() == counts.0.saturating_add(counts.1),
        "names: the total",
    )?;
    let tables = match bag.set_len() {
        0 => (0, 0, 0),
        1 => (16, 0, 11),
        _ => (16, 0, 10),
    };
    check(tables_of(bag) == tables, "names: the slots")
}

fn counts_of(bag: &HashBag<String>, names: &(String, String)) -> (usize, usize) {
    (bag.contains(&names.0), bag.contains(&names.1))
}

// An extend by clones, and a clone of the bag that it leaves.
fn extend_and_clone(
    alloc: Global,
    names: &(String, String),
    refusals: &mut Refusals,
) -> Result<(), Wrong> {
    let mut bag: HashBag<String> = HashBag::new(alloc);
    let items = [&names.0, &names.1, &names.0];
    let done = refusals.is_done(bag.extend_refs(items.into_iter()))?;
    has_names(&bag, counts_of(&bag, names), done)?;
    clone_of(&bag, names, refusals)
}

// Checks that a clone is equal, if there is one, and its source stays as it was.
fn clone_of(
    bag: &HashBag<String>,
    names: &(String, String),
    refusals: &mut Refusals,
) -> Result<(), Wrong> {
    let (counts, tables) = (counts_of(bag, names), tables_of(bag));
    if let Some(clone) = refusals.answer(bag.clone())? {
        check(clone == *bag, "names: the clone is equal")?;
    }
    check(
        (counts_of(bag, names), tables_of(bag)) == (counts, tables),
        "names: the source of a clone",
    )
}

/// An extend by clones that are allocated, and a clone of the bag that it leaves, which is equal if there is one.
pub fn cloned_names(alloc: Global, refusals: &mut Refusals) -> Result<(), Wrong> {
    match names(alloc) {
        Ok(names) => extend_and_clone(alloc, &names, refusals),
        Err(_) => {
            refusals.count();
            Ok(())
        }
    }
}

// Inserts a name as a text, checks the count before, and returns whether it was inserted. A failure changes nothing.
fn insert_text(
    bag: &mut HashBag<String>,
    name: &str,
    before: usize,
    refusals: &mut Refusals,
) -> Result<bool, Wrong> {
    let (total, tables) = (bag.len(), tables_of(bag));
    let Some(answer) = refusals.answer(bag.insert_key(name))? else {
        check(bag.contains(name) == 0, "texts: refused")?;
        check(bag.len() == total, "texts: the total after a refusal")?;
        check(tables_of(bag) == tables, "texts: the slots after a refusal")?;
        return Ok(false);
    };
    check(answer == before, "texts: the answer")?;
    Ok(true)
}

/// Insertions by texts, from which a `String` is made only if it is absent: a present one makes no allocation.
pub fn inserted_texts(alloc: Global, refusals: &mut Refusals) -> Result<(), Wrong> {
    let mut bag: HashBag<String> = HashBag::new(alloc);
    for name in ["Einar", "Harald"] {
        insert_twice(&mut bag, name, refusals)?;
    }
    check(bag.len() == 4, "texts: the total")
}

// Inserts a text twice, of which only the first may fail.
fn insert_twice(
    bag: &mut HashBag<String>,
    name: &str,
    refusals: &mut Refusals,
) -> Result<(), Wrong> {
    if !insert_text(bag, name, 0, refusals)? {
        let done = insert_text(bag, name, 0, refusals)?;
        check(done, "texts: with memory again")?;
    }
    let done = insert_text(bag, name, 1, refusals)?;
    check(done, "texts: of a name that is there, refused")?;
    check(bag.contains(name) == 2, "texts: the count")
}
