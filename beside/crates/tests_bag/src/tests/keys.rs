//! Calls by texts on a bag of texts, as rows of text: what no clause says of them is that they succeed.
use hashbag::{BagError, HashBag};
use hashbag_callers::text_uses::{count_texts, how_often};
use std::alloc::Global;
use std::test::Fail;
use tests_kit::rows_of;
use tests_kit::texts::{debug_of, halves, is_text};

// One bag throughout. Some of the texts are present already.
const ROWS: &str = "
    contains the = 0
    get the = None
    remove the = 0
    insert the = Ok(0)
    insert the = Ok(1)
    insert thé = Ok(0)
    insert_none cat = Ok(0)
    get cat = None
    insert_three the = Ok(2)
    insert_three cat = Ok(0)
    contains the = 5
    get the = Some((\"the\", 5))
    get th = None
    remove thé = 1
    contains thé = 0
    remove the = 5
    contains the = 4
    insert_none the = Ok(4)
    insert_rest the = Ok(4)
    insert the = Err(TooMany)
    insert_none the = Ok(18446744073709551612)
    contains cat = 3";

fn insert(bag: &mut HashBag<String>, word: &str) -> Result<usize, BagError> {
    bag.insert_key(word)
}

fn insert_many(bag: &mut HashBag<String>, word: &str, n: usize) -> Result<usize, BagError> {
    bag.insert_many_key(word, n)
}

// As many as the limit has room for.
fn insert_rest(bag: &mut HashBag<String>, word: &str) -> Result<usize, BagError> {
    bag.insert_many_key(word, bag.limit() - bag.len())
}

fn get(alloc: Global, bag: &HashBag<String>, word: &str) -> Result<String, Fail> {
    debug_of(alloc, &bag.get(word))
}

fn remove(bag: &mut HashBag<String>, word: &str) -> usize {
    bag.remove(word)
}

fn answer(
    alloc: Global,
    bag: &mut HashBag<String>,
    verb: &str,
    word: &str,
) -> Result<String, Fail> {
    match verb {
        "insert" => debug_of(alloc, &insert(bag, word)),
        "insert_none" => debug_of(alloc, &insert_many(bag, word, 0)),
        "insert_three" => debug_of(alloc, &insert_many(bag, word, 3)),
        "insert_rest" => debug_of(alloc, &insert_rest(bag, word)),
        "get" => get(alloc, bag, word),
        "remove" => debug_of(alloc, &remove(bag, word)),
        _ => debug_of(alloc, &how_often(bag, word)),
    }
}

fn is_answered(alloc: Global, bag: &mut HashBag<String>, row: &str) -> Result<(), Fail> {
    let (call, want) = halves(row, " = ")?;
    let (verb, word) = halves(call, " ")?;
    is_text(answer(alloc, bag, verb, word)?.as_str(), want)
}

#[test]
fn calls_by_texts(rt: HostRuntime) -> Result<(), Fail> {
    let alloc = rt.alloc();
    let mut bag = HashBag::new(alloc);
    for row in rows_of(alloc, ROWS)? {
        row.tested(is_answered(alloc, &mut bag, row.text))?;
    }
    Ok(())
}

#[test]
fn counted_texts(rt: HostRuntime) -> Result<(), Fail> {
    let alloc = rt.alloc();
    let bag = count_texts(alloc, ["the", "cat", "and", "the", "hat"].as_slice())?;
    for (word, want) in [("the", 2), ("cat", 1), ("thehat", 0)] {
        if how_often(&bag, word) != want {
            return Err(Fail::new(format_args!("{word}")));
        }
    }
    Ok(())
}

// Lists by slices, and boxes by what they hold: insertions by a slice succeed, and both are found and removed.
#[test]
fn lists_and_boxes(rt: HostRuntime) -> Result<(), Fail> {
    let alloc = rt.alloc();
    let (pair, single): (&[u64], &[u64]) = (&[1, 2], &[1]);
    let mut lists: HashBag<Vec<u64>> = HashBag::from_keys(
        alloc,
        [pair, single, pair].iter().copied(),
    )?;
    let mut boxes: HashBag<Box<u64>> = HashBag::new(alloc);
    boxes.insert_many(Box::new(alloc, 7)?, 3)?;
    for (name, now, want) in [
        ("a list", lists.contains(pair), 2),
        ("a removed list", lists.remove(single), 1),
        ("an absent list", lists.contains(single), 0),
        ("a box", boxes.remove(&7), 3),
        ("an absent box", boxes.contains(&8), 0),
    ] {
        if now != want {
            return Err(Fail::new(format_args!("{name}: {now}")));
        }
    }
    Ok(())
}
