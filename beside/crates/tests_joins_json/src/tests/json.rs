//! Trees of bags that were inserted, and long trees. `tests_rows` has rows of trees that are read.
use hashbag::{FixedState, HashBag, JsonError, JsonItem};
use hashbag_callers::json_uses::{both_trees, read_again};
use serde_json::Value;
use std::alloc::{AllocError, Global};
use std::hash::{BuildHasher, Hash};
use std::process::Abort;
use std::test::Fail;
use tests_kit::texts::{debug_of, is_text_of};
use tests_kit::{IdentityState, Named, OneState, ParityState};

// What bags of inserted texts and names are written as.
const TEXTS: &str = r#"6 3 [["Einar",1],["Harald",3],["Olaf",2]]"#;

const NAMES: &str = r#"6 3 [[{"name":"Einar"},1],[{"name":"Harald"},3],[{"name":"Olaf"},2]]"#;

fn tree_of(alloc: Global, text: &str) -> Result<Value, Fail> {
    match Value::from_str(alloc, text) {
        Ok(tree) => Ok(tree),
        Err(_) => Err(Fail::new(format_args!("no tree: {text}"))),
    }
}

// The total of a bag, the number of its distinct values, and its tree.
fn written<T: JsonItem + Ord + Hash + Drop, S: BuildHasher + Drop>(
    alloc: Global,
    bag: &HashBag<T, S>,
) -> Result<String, Fail> {
    let len = bag.len();
    let set_len = bag.set_len();
    let tree = bag.to_value(alloc).ok().ok_or("a tree")?;
    let tree = tree.to_string(alloc)?;
    Ok(format!(in alloc; "{len} {set_len} {tree}")?)
}

// Whether two bags have one text.
fn have_one_text<T: JsonItem + Ord + Hash + Drop, S: BuildHasher + Drop>(
    alloc: Global,
    a: &HashBag<T, S>,
    b: &HashBag<T, S>,
) -> Result<bool, Fail> {
    let (first, second) = both_trees(alloc, a, b).ok().ok_or("trees")?;
    Ok(first.to_string(alloc)? == second.to_string(alloc)?)
}

fn are_equal<T: JsonItem + Hash + Drop, S: BuildHasher + Drop>(
    a: &HashBag<T, S>,
    b: &HashBag<T, S>,
) -> bool {
    a == b
}

// Checks that what a bag is written as is read back as an equal bag with the same limit.
fn is_read_again<T: JsonItem + Ord + Hash + Drop, S: BuildHasher + Default + Drop>(
    alloc: Global,
    bag: &HashBag<T, S>,
) -> Result<(), Fail> {
    let again: HashBag<T, S> = read_again(alloc, bag).ok().ok_or("a bag")?;
    let same = (
        are_equal(&again, bag),
        again.limit() == bag.limit(),
        have_one_text(alloc, &again, bag)?,
    );
    is_text_of(
        "the bag, the limit and the text",
        debug_of(alloc, &same)?.as_str(),
        "(true, true, true)",
    )
}

// Inserts each value as often as its number says. Checks that the bag is written as `wanted`, and read back as an equal one.
fn inserted_are_written<T: JsonItem + Ord + Hash + Drop, S: BuildHasher + Default + Drop>(
    alloc: Global,
    pairs: Vec<(T, usize)>,
    wanted: &str,
) -> Result<(), Fail> {
    let mut bag: HashBag<T, S> = HashBag::default_in(alloc);
    for (value, n) in pairs {
        bag.insert_many(value, n)?;
    }
    is_text_of("inserted", written(alloc, &bag)?.as_str(), wanted)?;
    is_read_again(alloc, &bag)
}

fn text(alloc: Global, name: &str) -> Result<String, AllocError> {
    String::from_str(alloc, name)
}

fn named(alloc: Global, name: &str) -> Result<Named, AllocError> {
    Ok(Named {
        name: text(alloc, name)?,
    })
}

fn all_inserted_are_written<S: BuildHasher + Default + Drop>(alloc: Global) -> Result<(), Fail> {
    let numbers: Vec<(i64, usize)> = vec![in alloc; (-3, 2), (4, 1)]?;
    inserted_are_written::<i64, S>(alloc, numbers, "3 2 [[-3,2],[4,1]]")?;
    let texts = vec![in alloc;
        (text(alloc, "Einar")?, 1),
        (text(alloc, "Olaf")?, 2),
        (text(alloc, "Harald")?, 3),
    ]?;
    inserted_are_written::<String, S>(alloc, texts, TEXTS)?;
    let names = vec![in alloc;
        (named(alloc, "Einar")?, 1),
        (named(alloc, "Olaf")?, 2),
        (named(alloc, "Harald")?, 3),
    ]?;
    inserted_are_written::<Named, S>(alloc, names, NAMES)
}

#[test]
fn inserted_values_are_written(rt: HostRuntime) -> Result<(), Fail> {
    all_inserted_are_written::<FixedState>(rt.alloc())?;
    all_inserted_are_written::<OneState>(rt.alloc())
}

// Returns the tree of `pairs` equal pairs.
fn long_tree(alloc: Global, pair: &str, pairs: usize) -> Result<Value, Fail> {
    let mut text = String::new(alloc);
    text.push('[')?;
    for number in 0..pairs {
        if number > 0 {
            text.push(',')?;
        }
        text.push_str(pair)?;
    }
    text.push(']')?;
    tree_of(alloc, text.as_str())
}

// Checks that room was made for one value, and not for as many as there are pairs.
fn has_little_room<S: BuildHasher + Drop>(rt: &impl Abort, bag: &HashBag<u64, S>) {
    let room = bag.capacity();
    assert!(rt; room < 100, "room for {room} values");
}

fn is_read_as_one_value<S: BuildHasher + Default + Drop>(
    rt: &impl Abort,
    alloc: Global,
    tree: &Value,
) -> Result<(), Fail> {
    let read: Result<HashBag<u64, S>, JsonError> = HashBag::from_value(alloc, tree);
    let bag = read.ok().ok_or("a bag")?;
    is_text_of(
        "a long tree",
        written(alloc, &bag)?.as_str(),
        "5000 1 [[7,5000]]",
    )?;
    has_little_room(rt, &bag);
    Ok(())
}

#[test]
fn long_trees_of_one_value(rt: HostRuntime) -> Result<(), Fail> {
    let tree = long_tree(rt.alloc(), "[7,1]", 5000)?;
    is_read_as_one_value::<FixedState>(&rt, rt.alloc(), &tree)?;
    is_read_as_one_value::<OneState>(&rt, rt.alloc(), &tree)?;
    is_read_as_one_value::<ParityState>(&rt, rt.alloc(), &tree)?;
    is_read_as_one_value::<IdentityState>(&rt, rt.alloc(), &tree)
}
