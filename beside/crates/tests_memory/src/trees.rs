//! Trees that are read as bags, and bags that are written as trees.
use crate::checks::{Refusals, Wrong, check};
use crate::counts::tables_of;
use hashbag::{FixedState, HashBag, JsonError};
use serde_json::Value;
use std::alloc::Global;

// The tree of a text. `None` if an allocation failed.
fn tree_of(alloc: Global, text: &str, refusals: &mut Refusals) -> Option<Value> {
    match Value::from_str(alloc, text) {
        Ok(tree) => Some(tree),
        Err(_) => {
            refusals.count();
            None
        }
    }
}

// Checks that the bag is written, or an allocation failed.
fn written(
    alloc: Global,
    bag: &HashBag<String, FixedState>,
    refusals: &mut Refusals,
) -> Result<(), Wrong> {
    let written = refusals.answer(bag.to_value(alloc))?;
    let state = (bag.len(), bag.set_len(), tables_of(bag));
    check(state == (4, 2, (16, 0, 10)), "to_value: the bag")?;
    match written {
        Some(tree) => check(
            tree.get("pairs")
                .and_then(Value::as_array)
                .is_some_and(|pairs| pairs.len() == 2),
            "to_value: the pairs",
        ),
        None => Ok(()),
    }
}

/// A tree of texts with a limit is read, with equal ones in it, and the bag is written: each is done, or an allocation failed.
pub fn trees(alloc: Global, refusals: &mut Refusals) -> Result<(), Wrong> {
    let text = "{\"limit\":9,\"pairs\":[[\"b\",2],[\"a\",1],[\"b\",1]]}";
    let Some(tree) = tree_of(alloc, text, refusals) else {
        return Ok(());
    };
    match HashBag::from_value(alloc, &tree) {
        Ok(bag) => {
            check(bag.len() == 4, "from_value: the total")?;
            check(bag.limit() == 9, "from_value: the limit")?;
            written(alloc, &bag, refusals)
        }
        Err(error) => {
            refusals.count();
            check(
                error == JsonError::Memory,
                "from_value: a fault where there is none",
            )
        }
    }
}

// Trees whose reading makes an allocation, each with its fault. The first one has none, and is read as a bag of one value.
const PAIRS: [(&str, Option<JsonError>); 2] = [
    ("[[\"a\",1]]", None),
    ("[[\"b\",2],[5,1]]", Some(JsonError::BadItem(1))),
];

// Checks that a tree that is read is a bag of one value, or it has this fault, or an allocation failed.
fn is_read(
    alloc: Global,
    tree: &Value,
    fault: Option<JsonError>,
    refusals: &mut Refusals,
) -> Result<(), Wrong> {
    let read: Result<HashBag<String, FixedState>, JsonError> = HashBag::from_value(alloc, tree);
    match read {
        Ok(bag) => check(
            fault.is_none() && (bag.len(), tables_of(&bag)) == (1, (16, 0, 11)),
            "from_value: the bag of a pair",
        ),
        Err(JsonError::Memory) => {
            refusals.count();
            Ok(())
        }
        Err(error) => check(fault == Some(error), "from_value: another fault"),
    }
}

/// One pair, and a fault after a first pair: the bag or the fault is returned, or an allocation failed.
pub fn pairs(alloc: Global, refusals: &mut Refusals) -> Result<(), Wrong> {
    for (text, fault) in &PAIRS {
        let Some(tree) = tree_of(alloc, text, refusals) else {
            return Ok(());
        };
        is_read(alloc, &tree, *fault, refusals)?;
    }
    Ok(())
}

// Trees that are read without a request for memory, with their faults. The last one is read as an empty bag.
const WITHOUT_MEMORY: [(&str, Option<JsonError>); 4] = [
    ("{}", Some(JsonError::NotAnArray)),
    ("[[\"a\"]]", Some(JsonError::NotAPair(0))),
    ("[[\"a\",-1]]", Some(JsonError::BadCount(0))),
    ("[]", None),
];

// What is wrong with a tree. `None` if its bag is empty.
fn fault_of(alloc: Global, tree: &Value) -> Result<Option<JsonError>, Wrong> {
    let read: Result<HashBag<String, FixedState>, JsonError> = HashBag::from_value(alloc, tree);
    match read {
        Ok(bag) => {
            check(bag.is_empty(), "from_value: an empty bag")?;
            Ok(None)
        }
        Err(error) => Ok(Some(error)),
    }
}

/// Trees that are read without a request for memory: the results are the same whichever request fails.
pub fn trees_without_memory(alloc: Global, refusals: &mut Refusals) -> Result<(), Wrong> {
    for (text, fault) in &WITHOUT_MEMORY {
        let Some(tree) = tree_of(alloc, text, refusals) else {
            return Ok(());
        };
        check(fault_of(alloc, &tree)? == *fault, "from_value: the fault")?;
    }
    Ok(())
}
