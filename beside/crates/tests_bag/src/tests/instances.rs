//! Which instance of a value is stored: rows of calls on a bag of tagged values.
//!
//! A value is written as its key and its tag, as `1:10`. Two values with one key are equal.
use hashbag::{BagError, FixedState, HashBag};
use std::alloc::Global;
use std::hash::BuildHasher;
use std::test::Fail;
use tests_kit::calls::{insert, replace};
use tests_kit::texts::{count, debug_of, halves, is_text, number, tagged};
use tests_kit::{IdentityState, OneState, ParityState, Tagged, rows_of};

// The first instance of a value stays until all of it is taken out or replaced, in a clone too. An entry gives the stored
// instance, and keeps the given value.
const ROWS: &str = "
    [until replaced]
    insert 1:10 = 0
    insert 1:20 = 1
    stored 1 = Some((10, 2))
    replace 1:30 = 2
    stored 1 = Some((30, 1))
    entry 1:40 = 30
    set_to_none_and_insert 1:50 = (50, 1)
    stored 1 = Some((50, 1))
    stored 2 = None

    [entries]
    entry 1:30 = 30
    or_insert_many 1:30 2 = 2
    entry 1:40 = 30
    or_insert 1:40 = 2
    stored 1 = Some((30, 2))

    [sets to none, and inserts the value handed in]
    insert_many 5:1 3 = 0
    set_to_none_and_insert 5:2 = (2, 1)
    stored 5 = Some((2, 1))

    [collections]
    from_iter 1:10 1:20 = ()
    stored 1 = Some((10, 2))
    equals 1:30 1:10 = (true, true)
    equals 1:10 = (false, false)
    clone = ()
    stored 1 = Some((10, 2))";

// Each kind of call has a function with no contract, as in `calls` of `tests_kit`.

// The tag of the stored instance with this key, and how often it occurs.
fn stored<S: BuildHasher + Drop>(bag: &HashBag<Tagged, S>, key: u64) -> Option<(u64, usize)> {
    match bag.get(&Tagged { key, tag: 0 }) {
        Some((instance, count)) => Some((instance.tag, count)),
        None => None,
    }
}

// The tag of the value that an entry gives.
fn entry<S: BuildHasher + Drop>(bag: &mut HashBag<Tagged, S>, value: Tagged) -> u64 {
    bag.entry(value).value().tag
}

fn or_insert<S: BuildHasher + Drop>(
    bag: &mut HashBag<Tagged, S>,
    value: Tagged,
) -> Result<usize, BagError> {
    bag.entry(value).or_insert()
}

fn insert_many<S: BuildHasher + Drop>(
    bag: &mut HashBag<Tagged, S>,
    value: Tagged,
    n: usize,
) -> Result<usize, BagError> {
    bag.insert_many(value, n)
}

fn or_insert_many<S: BuildHasher + Drop>(
    bag: &mut HashBag<Tagged, S>,
    value: Tagged,
    n: usize,
) -> Result<usize, BagError> {
    bag.entry(value).or_insert_many(n)
}

// Sets the count to 0, and inserts at the entry that is then vacant. Returns the tag of its value, and the count.
fn set_to_none_and_insert<S: BuildHasher + Drop>(
    bag: &mut HashBag<Tagged, S>,
    value: Tagged,
) -> Result<(u64, usize), BagError> {
    let vacated = bag.entry(value).and_modify(|count: &mut usize| *count = 0)?;
    let tag = vacated.value().tag;
    Ok((tag, vacated.or_insert()?))
}

// The values of a list as `1:10 1:20`.
fn tagged_values(alloc: Global, text: &str) -> Result<Vec<Tagged>, Fail> {
    let mut list = Vec::new(alloc);
    for word in text.split_whitespace() {
        list.push(tagged(word)?)?;
    }
    Ok(list)
}

fn from_iter<S: BuildHasher + Default + Drop>(
    alloc: Global,
    values: &[Tagged],
) -> Result<HashBag<Tagged, S>, BagError> {
    HashBag::from_iter(alloc, values.iter().copied())
}

// Whether the bag equals a bag of these values, and whether that equals the bag.
fn equals<S: BuildHasher + Default + Drop>(
    alloc: Global,
    bag: &HashBag<Tagged, S>,
    values: &[Tagged],
) -> Result<(bool, bool), BagError> {
    let other = from_iter(alloc, values)?;
    Ok((*bag == other, other == *bag))
}

fn clone<S: BuildHasher + Clone + Drop>(
    bag: &HashBag<Tagged, S>,
) -> Result<HashBag<Tagged, S>, BagError> {
    bag.clone()
}

fn no_call(call: &str) -> Result<String, Fail> {
    Err(Fail::new(format_args!("no such call: {call}")))
}

// Returns the text of what a call on one value returns.
fn with_value<S: BuildHasher + Drop>(
    alloc: Global,
    bag: &mut HashBag<Tagged, S>,
    verb: &str,
    value: Tagged,
) -> Result<String, Fail> {
    match verb {
        "insert" => debug_of(alloc, &insert(bag, value)?),
        "replace" => debug_of(alloc, &replace(bag, value)?),
        "entry" => debug_of(alloc, &entry(bag, value)),
        "or_insert" => debug_of(alloc, &or_insert(bag, value)?),
        "set_to_none_and_insert" => debug_of(alloc, &set_to_none_and_insert(bag, value)?),
        _ => no_call(verb),
    }
}

// Returns the text of what a call on a value with a count returns.
fn with_count<S: BuildHasher + Drop>(
    alloc: Global,
    bag: &mut HashBag<Tagged, S>,
    verb: &str,
    rest: &str,
) -> Result<String, Fail> {
    let (value, n) = halves(rest, " ")?;
    let (value, n) = (tagged(value)?, count(n)?);
    match verb {
        "insert_many" => debug_of(alloc, &insert_many(bag, value, n)?),
        _ => debug_of(alloc, &or_insert_many(bag, value, n)?),
    }
}

// Returns the text of what a call on several values returns.
fn with_values<S: BuildHasher + Default + Drop>(
    alloc: Global,
    bag: &mut HashBag<Tagged, S>,
    verb: &str,
    values: &[Tagged],
) -> Result<String, Fail> {
    match verb {
        "from_iter" => {
            *bag = from_iter(alloc, values)?;
            debug_of(alloc, &())
        }
        "equals" => debug_of(alloc, &equals(alloc, bag, values)?),
        _ => no_call(verb),
    }
}

// Returns the text of what a call returns.
fn answer<S: BuildHasher + Default + Copy>(
    alloc: Global,
    bag: &mut HashBag<Tagged, S>,
    call: &str,
) -> Result<String, Fail> {
    if call == "clone" {
        *bag = clone(bag)?;
        return debug_of(alloc, &());
    }
    let (verb, rest) = halves(call, " ")?;
    match verb {
        "stored" => debug_of(alloc, &stored(bag, number(rest)?)),
        "insert_many" | "or_insert_many" => with_count(alloc, bag, verb, rest),
        "from_iter" | "equals" => {
            with_values(alloc, bag, verb, tagged_values(alloc, rest)?.as_slice())
        }
        _ => with_value(alloc, bag, verb, tagged(rest)?),
    }
}

// Makes the call of a row.
fn make_row<S: BuildHasher + Default + Copy>(
    alloc: Global,
    bag: &mut HashBag<Tagged, S>,
    row: &str,
) -> Result<(), Fail> {
    let (call, want) = halves(row, " = ")?;
    let got = answer(alloc, bag, call)?;
    is_text(got.as_str(), want)
}

// A row in brackets names the rows after it, which are on a new bag.
fn make_rows<S: BuildHasher + Default + Copy>(alloc: Global, state: S) -> Result<(), Fail> {
    let mut bag = HashBag::with_hasher(alloc, state);
    for row in rows_of(alloc, ROWS)? {
        if row.text.starts_with('[') {
            bag = HashBag::with_hasher(alloc, state);
        } else {
            row.tested(make_row(alloc, &mut bag, row.text))?;
        }
    }
    Ok(())
}

#[test]
fn instances_under_each_state(rt: HostRuntime) -> Result<(), Fail> {
    let alloc = rt.alloc();
    make_rows(alloc, FixedState::new())?;
    make_rows(alloc, OneState)?;
    make_rows(alloc, ParityState)?;
    make_rows(alloc, IdentityState)
}
