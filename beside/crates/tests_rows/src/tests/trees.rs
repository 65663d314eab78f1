//! Trees of bags, read and written, with the results found by hand.
use hashbag::{FixedState, HashBag, JsonError, JsonItem};
use serde_json::Value;
use std::alloc::{AllocError, Global};
use std::hash::{BuildHasher, Hash};
use std::test::Fail;
use tests_kit::texts::{count, debug_of, halves, is_text};
use tests_kit::{IdentityState, Named, OneState, ParityState, rows_of};

// Each row: the type of the items, a tree, and then the error; or the total, the number of distinct values and the new tree.
const TREES: &str = r#"
    String | null | NotAnArray
    String | true | NotAnArray
    String | 5 | NotAnArray
    String | "x" | NotAnArray
    String | {} | NotAnArray
    String | [null] | NotAPair(0)
    String | ["a"] | NotAPair(0)
    String | [[]] | NotAPair(0)
    String | [["a"]] | NotAPair(0)
    String | [["a",1,2]] | NotAPair(0)
    String | [["a"],["b",-1]] | NotAPair(0)
    String | [["a",null]] | BadCount(0)
    String | [["a","1"]] | BadCount(0)
    String | [["a",true]] | BadCount(0)
    String | [["a",[]]] | BadCount(0)
    String | [["a",1.0]] | BadCount(0)
    String | [["a",1],["b",-1]] | BadCount(1)
    String | [[5,-1]] | BadCount(0)
    String | [[5,0]] | BadItem(0)
    String | [["a",18446744073709551615],[7,1]] | BadItem(1)
    u64 | [[-1,1]] | BadItem(0)
    u64 | [[1.0,1]] | BadItem(0)
    i64 | [[9223372036854775808,1]] | BadItem(0)
    Named | [["a",1]] | BadItem(0)
    Named | [[{},1]] | BadItem(0)
    Named | [[{"name":5},1]] | BadItem(0)
    String | [["a",18446744073709551615],["b",1]] | TooMany(1)
    String | [["a",1],["b",2],["a",18446744073709551613]] | TooMany(2)
    String | [] | 0 0 []
    String | [["a",0]] | 0 0 []
    String | [["a",18446744073709551615],["a",0]] | 18446744073709551615 1 [["a",18446744073709551615]]
    String | [["a",1],["b",2],["a",18446744073709551612]] | 18446744073709551615 2 [["a",18446744073709551613],["b",2]]
    u64 | [[18446744073709551615,2]] | 2 1 [[18446744073709551615,2]]
    String | [["Einar",1],["Olaf",1],["Olaf",1],["Harald",2],["Harald",1]] | 6 3 [["Einar",1],["Harald",3],["Olaf",2]]
    String | [["ä",1],["\"",1]] | 2 2 [["\"",1],["ä",1]]
    i64 | [[4,1],[-3,2]] | 3 2 [[-3,2],[4,1]]
    u64 | [[10,1],[9,2]] | 3 2 [[9,2],[10,1]]
    Named | [[{"name":"Einar"},1],[{"name":"Olaf"},1],[{"name":"Olaf"},1],[{"name":"Harald"},2],[{"name":"Harald"},1]] | 6 3 [[{"name":"Einar"},1],[{"name":"Harald"},3],[{"name":"Olaf"},2]]
    String | [["Einar",1],["Olaf",2],["Harald",3]] | 6 3 [["Einar",1],["Harald",3],["Olaf",2]]
    Named | [[{"name":"Einar"},1],[{"name":"Olaf"},2],[{"name":"Harald"},3]] | 6 3 [[{"name":"Einar"},1],[{"name":"Harald"},3],[{"name":"Olaf"},2]]"#;

// Such rows for trees with a limit, and for objects that are no such tree. Of a member that is there twice the last one counts.
const LIMITED_TREES: &str = r#"
    String | {"limit":5,"pairs":[["b",3],["a",2]]} | 5 2 {"limit":5,"pairs":[["a",2],["b",3]]}
    String | {"pairs":[["b",3],["a",2]],"limit":6} | 5 2 {"limit":6,"pairs":[["a",2],["b",3]]}
    String | {"limit":4,"pairs":[["a",2],["b",3]]} | TooMany(1)
    String | {"limit":-1,"pairs":[]} | BadLimit
    String | {"limit":2.0,"pairs":[]} | BadLimit
    String | {"limit":18446744073709551616,"pairs":[]} | BadLimit
    String | {"limit":"5","pairs":[]} | BadLimit
    String | {"limit":null,"pairs":[null]} | BadLimit
    String | {"pairs":[]} | BadLimit
    String | {"pairs":["a"]} | BadLimit
    String | {"limit":1} | NotAnArray
    String | {"limit":1,"pairs":{}} | NotAnArray
    String | {"limit":1,"pairs":null} | NotAnArray
    String | {"limit":1,"pairs":[],"x":0} | NotAnArray
    String | {"limit":-1,"next":0,"pairs":[]} | NotAnArray
    String | {"counts":1,"pairs":[]} | NotAnArray
    String | {"limits":1,"pairs":[]} | NotAnArray
    String | {"limit":0,"pairs":["a"]} | NotAPair(0)
    String | {"limit":0,"pairs":[["a",-1]]} | BadCount(0)
    String | {"limit":0,"pairs":[[5,1]]} | BadItem(0)
    String | {"limit":0,"pairs":[["a",1]]} | TooMany(0)
    String | {"limit":0,"pairs":[["a",0]]} | 0 0 {"limit":0,"pairs":[]}
    String | {"limit":18446744073709551615,"pairs":[["a",1]]} | 1 1 [["a",1]]
    String | {"limit":18446744073709551614,"pairs":[["a",18446744073709551614],["b",0]]} | 18446744073709551614 1 {"limit":18446744073709551614,"pairs":[["a",18446744073709551614]]}
    String | {"limit":4,"pairs":[["a",9]],"limit":5,"pairs":[["b",3],["a",2]]} | 5 2 {"limit":5,"pairs":[["a",2],["b",3]]}
    String | {"limit":-1,"limit":1,"pairs":[]} | 0 0 {"limit":1,"pairs":[]}
    String | {"limit":1,"pairs":[],"limit":-1} | BadLimit
    String | {"limit":1,"pairs":[],"pairs":{}} | NotAnArray
    u64 | {"limit":3,"pairs":[[7,2],[6,1]]} | 3 2 {"limit":3,"pairs":[[6,1],[7,2]]}
    Named | {"limit":2,"pairs":[[{"name":"Olaf"},2]]} | 2 1 {"limit":2,"pairs":[[{"name":"Olaf"},2]]}"#;

// Each row: a limit, a tree of texts, and then the error of reading the tree within the limit; or what is read: the limit of the bag, the total,
// the number of distinct values, and the new tree.
const WITHIN: &str = r#"
    4 | [["a",2],["b",3]] | TooMany(1)
    5 | [["a",2],["b",3]] | 5 5 2 {"limit":5,"pairs":[["a",2],["b",3]]}
    0 | [] | 0 0 0 {"limit":0,"pairs":[]}
    0 | [["a",1]] | TooMany(0)
    18446744073709551615 | [["a",2]] | 18446744073709551615 2 1 [["a",2]]
    3 | {"limit":5,"pairs":[["a",3]]} | 3 3 1 {"limit":3,"pairs":[["a",3]]}
    3 | {"limit":5,"pairs":[["a",4]]} | TooMany(0)
    5 | {"limit":3,"pairs":[["a",3]]} | 3 3 1 {"limit":3,"pairs":[["a",3]]}
    5 | {"limit":3,"pairs":[["a",4]]} | TooMany(0)
    4 | {"limit":18446744073709551615,"pairs":[["a",4]]} | 4 4 1 {"limit":4,"pairs":[["a",4]]}
    18446744073709551615 | {"limit":7,"pairs":[]} | 7 0 0 {"limit":7,"pairs":[]}
    0 | {"limit":-1,"pairs":[]} | BadLimit
    0 | {"limit":1,"pairs":[],"x":0} | NotAnArray
    0 | {} | NotAnArray"#;

fn tree_of(alloc: Global, text: &str) -> Result<Value, Fail> {
    match Value::from_str(alloc, text) {
        Ok(tree) => Ok(tree),
        Err(_) => Err(Fail::new(format_args!("no tree: {text}"))),
    }
}

fn read<T: JsonItem + Hash + Drop, S: BuildHasher + Default + Drop>(
    alloc: Global,
    tree: &Value,
) -> Result<HashBag<T, S>, JsonError> {
    HashBag::from_value(alloc, tree)
}

// The total of a bag, the number of its distinct values, and its tree, which is read back as an equal bag.
fn written<T: JsonItem + Ord + Hash + Drop, S: BuildHasher + Default + Drop>(
    alloc: Global,
    bag: &HashBag<T, S>,
) -> Result<String, Fail> {
    let (len, set_len) = (bag.len(), bag.set_len());
    let tree = bag.to_value(alloc).ok().ok_or("a tree")?;
    let again = read::<T, S>(alloc, &tree).ok().ok_or("a bag")?;
    if again != *bag || again.limit() != bag.limit() {
        return Err(Fail::new("what was written is read as another bag"));
    }
    let tree = tree.to_string(alloc)?;
    Ok(format!(in alloc; "{len} {set_len} {tree}")?)
}

// Returns the text of what the reading of a text returns.
fn answer_of<T: JsonItem + Ord + Hash + Drop, S: BuildHasher + Default + Drop>(
    alloc: Global,
    text: &str,
) -> Result<String, Fail> {
    match read::<T, S>(alloc, &tree_of(alloc, text)?) {
        Ok(bag) => written(alloc, &bag),
        Err(error) => debug_of(alloc, &error),
    }
}

fn is_answered_under<T: JsonItem + Ord + Hash + Drop, S: BuildHasher + Default + Drop>(
    alloc: Global,
    text: &str,
    wanted: &str,
) -> Result<(), Fail> {
    is_text(answer_of::<T, S>(alloc, text)?.as_str(), wanted)
}

// Under each state.
fn is_answered<T: JsonItem + Ord + Hash + Drop>(
    alloc: Global,
    text: &str,
    wanted: &str,
) -> Result<(), Fail> {
    is_answered_under::<T, FixedState>(alloc, text, wanted)?;
    is_answered_under::<T, OneState>(alloc, text, wanted)?;
    is_answered_under::<T, ParityState>(alloc, text, wanted)?;
    is_answered_under::<T, IdentityState>(alloc, text, wanted)
}

// The items of a row are of one of four types.
fn is_answered_as(alloc: Global, items: &str, text: &str, wanted: &str) -> Result<(), Fail> {
    match items {
        "String" => is_answered::<String>(alloc, text, wanted),
        "u64" => is_answered::<u64>(alloc, text, wanted),
        "i64" => is_answered::<i64>(alloc, text, wanted),
        "Named" => is_answered::<Named>(alloc, text, wanted),
        _ => Err(Fail::new(format_args!("no items: {items}"))),
    }
}

fn tree_is_answered(alloc: Global, row: &str) -> Result<(), Fail> {
    let (items, rest) = halves(row, "|")?;
    let (text, answer) = halves(rest, "|")?;
    is_answered_as(alloc, items, text, answer)
}

fn trees_are_answered(alloc: Global, rows: &'static str) -> Result<(), Fail> {
    for row in rows_of(alloc, rows)? {
        row.tested(tree_is_answered(alloc, row.text))?;
    }
    Ok(())
}

#[test]
fn trees(rt: HostRuntime) -> Result<(), Fail> {
    trees_are_answered(rt.alloc(), TREES)?;
    trees_are_answered(rt.alloc(), LIMITED_TREES)
}

fn read_within<S: BuildHasher + Default + Drop>(
    alloc: Global,
    most: usize,
    tree: &Value,
) -> Result<HashBag<String, S>, JsonError> {
    HashBag::from_value_within(alloc, most, tree)
}

// Returns the text of what the reading of a tree within a limit returns.
fn answer_within<S: BuildHasher + Default + Drop>(
    alloc: Global,
    most: usize,
    text: &str,
) -> Result<String, Fail> {
    match read_within::<S>(alloc, most, &tree_of(alloc, text)?) {
        Ok(bag) => {
            let rest = written(alloc, &bag)?;
            Ok(format!(in alloc; "{} {rest}", bag.limit())?)
        }
        Err(error) => debug_of(alloc, &error),
    }
}

fn is_read_within<S: BuildHasher + Default + Drop>(alloc: Global, row: &str) -> Result<(), Fail> {
    let (most, rest) = halves(row, "|")?;
    let (text, wanted) = halves(rest, "|")?;
    let got = answer_within::<S>(alloc, count(most)?, text)?;
    is_text(got.as_str(), wanted)
}

#[test]
fn trees_within_a_limit(rt: HostRuntime) -> Result<(), Fail> {
    for row in rows_of(rt.alloc(), WITHIN)? {
        row.tested(is_read_within::<FixedState>(rt.alloc(), row.text))?;
        row.tested(is_read_within::<OneState>(rt.alloc(), row.text))?;
    }
    Ok(())
}

fn push_often(text: &mut String, mark: char, times: usize) -> Result<(), AllocError> {
    for _ in 0..times {
        text.push(mark)?;
    }
    Ok(())
}

// An item of 100 arrays, one inside the other.
#[test]
fn deep_items(rt: HostRuntime) -> Result<(), Fail> {
    let mut text = String::new(rt.alloc());
    push_often(&mut text, '[', 102)?;
    push_often(&mut text, ']', 100)?;
    text.push_str(",1]]")?;
    for items in ["String", "u64", "i64"] {
        is_answered_as(rt.alloc(), items, text.as_str(), "BadItem(0)")?;
    }
    Ok(())
}
