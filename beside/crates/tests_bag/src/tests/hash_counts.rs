//! How often a call on one bag hashes.
use hashbag::{BagError, HashBag};
use serde_json::Value;
use std::alloc::Global;
use std::test::Fail;
use tests_kit::calls::{answer, bag_of_counts, clone_of};
use tests_kit::rows_of;
use tests_kit::states::CountingState;
use tests_kit::texts::{count, counts, debug_of, halves, is_text, is_text_of, number};

// The counts of a bag, a call on it, and how often its state hashes in the call. A call is named as in the rows of calls.
const CALLS: &str = "
    5:2 6:1 | len | 0
    5:2 6:1 | set_len | 0
    5:2 6:1 | is_empty | 0
    5:2 6:1 | capacity | 0
    5:2 6:1 | contains 5 | 1
    5:2 6:1 | contains 7 | 1
    | contains 7 | 1
    5:2 6:1 | get 5 | 1
    5:2 6:1 | get 7 | 1
    5:2 6:1 | insert 5 | 1
    5:2 6:1 | insert 7 | 1
    | insert 7 | 1
    5:2 6:1 | insert_many 5 3 | 1
    5:2 6:1 | insert_many 7 3 | 1
    5:2 6:1 | insert_many 5 0 | 1
    5:2 6:1 | insert_many 7 0 | 1
    5:2 6:1 | remove 5 | 1
    5:2 6:1 | remove 6 | 1
    5:2 6:1 | remove 7 | 1
    5:3 6:1 | remove_up_to 5 2 | 1
    5:3 6:1 | remove_up_to 5 3 | 1
    5:3 6:1 | remove_up_to 5 0 | 1
    5:3 6:1 | remove_up_to 7 2 | 1
    5:2 6:1 | take_all 5 | 1
    5:2 6:1 | take_all 7 | 1
    5:2 6:1 | try_take 5 | 2
    5:2 6:1 | try_take 6 | 1
    5:2 6:1 | try_take 7 | 1
    5:2 6:1 | take_one 5 | 1
    5:2 6:1 | take_one 6 | 1
    5:2 6:1 | take_one 7 | 1
    5:2 6:1 | replace 5 | 1
    5:2 6:1 | replace 7 | 1
    5:18446744073709551615 | replace 5 | 1
    5:18446744073709551615 | replace 7 | 1
    5:2 6:1 | insert_many 5 18446744073709551615 | 0
    5:2 6:1 | insert_many 7 18446744073709551615 | 0
    5:2 6:1 | extend_many 7:18446744073709551615 | 0
    5:2 6:1 | extend_refs_many 7:18446744073709551615 | 0
    5:2 6:1 | limit | 0
    5:2 6:1 | set_limit 2 | 0
    5:2 6:1 | set_limit 3 | 0
    5:2 6:1 | with_limit 3 | 0
    5:2 6:1 | entry 5 | 0
    5:2 6:1 | entry_value 5 | 1
    5:2 6:1 | entry_value 7 | 1
    5:2 6:1 | entry_text 5 | 2
    5:2 6:1 | entry_text 7 | 2
    5:2 6:1 | or_insert 5 | 1
    5:2 6:1 | or_insert 7 | 2
    5:2 6:1 | or_insert_many 5 3 | 1
    5:2 6:1 | or_insert_many 7 3 | 2
    5:2 6:1 | or_insert_many 7 0 | 1
    5:2 6:1 | or_insert_many 7 18446744073709551615 | 1
    5:2 6:1 | set 5 3 | 2
    5:2 6:1 | set 5 0 | 2
    5:2 6:1 | set 5 18446744073709551615 | 1
    5:2 6:1 | set 7 3 | 1
    5:2 6:1 | set_count 5 3 | 2
    5:2 6:1 | set_count 5 0 | 2
    5:2 6:1 | set_count 5 18446744073709551615 | 1
    5:2 6:1 | set_count 7 3 | 2
    5:2 6:1 | set_count 7 0 | 2
    5:2 6:1 | set_count 7 18446744073709551615 | 1
    5:2 6:1 | set_or_insert 5 3 | 3
    5:2 6:1 | set_or_insert 5 0 | 4
    5:2 6:1 | set_or_insert 7 3 | 3
    5:2 6:1 | extend [] | 0
    5:2 6:1 | extend [5, 6, 5] | 3
    5:2 6:1 | extend [7, 5, 7] | 3
    5:2 6:1 | extend_refs [5, 6, 5] | 3
    5:2 6:1 | extend_refs [7, 5, 7] | 3
    5:2 6:1 | extend_many 5:4 6:2 5:1 | 3
    5:2 6:1 | extend_many 7:4 5:0 8:0 | 3
    5:2 6:1 | extend_refs_many 5:4 6:2 5:1 | 3
    5:2 6:1 | extend_refs_many 7:4 5:0 8:0 | 1
    | from_iter [5, 6, 5] | 3
    | from_counts 5:4 6:0 5:1 | 3
    | from_value [[5,4],[6,0],[5,1]] | 3
    5:2 6:1 | to_value | 0
    5:2 6:1 7:9 | retain_own_number | 0
    5:2 6:1 7:9 | retain_none | 0
    5:2 6:1 7:9 | iter.count | 0
    5:2 6:1 7:9 | set_iter.count | 0
    5:2 6:1 7:9 | drain | 0
    5:2 6:1 7:9 | clear | 0
    5:2 6:1 7:9 | reserve 1000 | 3
    5:2 6:1 7:9 | shrink_to_fit | 0
    5:2 6:1 7:9 | finish_carry | 0
    | default_in | 0
    | with_capacity 10 | 0";

// The counts of a bag in the middle of a carry: 17 to 24 wait in the older table, and an absent value carries these eight.
const CARRYING: &str = "1..=25:1";

// A call on such a bag, and how often its state hashes in the call.
const CALLS_IN_A_CARRY: &str = "
    tables | 0
    contains 5 | 1
    contains 20 | 1
    contains 26 | 1
    get 5 | 1
    get 20 | 1
    get 26 | 1
    insert 5 | 1
    insert 20 | 1
    insert 26 | 9
    insert_many 5 3 | 1
    insert_many 20 3 | 1
    insert_many 26 3 | 9
    insert_many 26 0 | 1
    insert_many 26 18446744073709551615 | 0
    remove 5 | 1
    remove 20 | 1
    remove 26 | 1
    remove_up_to 5 1 | 1
    remove_up_to 20 1 | 1
    remove_up_to 26 1 | 1
    take_all 5 | 1
    take_all 20 | 1
    take_all 26 | 1
    try_take 5 | 1
    try_take 20 | 1
    try_take 26 | 1
    take_one 5 | 1
    take_one 20 | 1
    take_one 26 | 1
    replace 5 | 1
    replace 20 | 1
    replace 26 | 9
    entry 20 | 0
    entry_value 5 | 1
    entry_value 20 | 1
    entry_value 26 | 1
    or_insert 5 | 1
    or_insert 20 | 1
    or_insert 26 | 10
    or_insert_many 26 3 | 10
    or_insert_many 26 0 | 1
    set 5 3 | 2
    set 20 3 | 2
    set 20 0 | 2
    set 26 3 | 1
    set_count 5 3 | 2
    set_count 20 3 | 2
    set_count 20 0 | 2
    set_count 26 3 | 10
    set_count 26 0 | 2
    set_count 26 18446744073709551615 | 1
    extend [20, 26] | 10
    extend [26, 27] | 10
    extend_many 20:2 26:1 | 10
    extend_refs [20, 26] | 10
    extend_refs_many 20:2 26:1 | 10
    to_value | 0
    retain_own_number | 0
    retain_none | 0
    iter.count | 0
    set_iter.count | 0
    drain | 0
    clear | 0
    reserve 23 | 0
    reserve 1000 | 33
    shrink_to_fit | 0
    finish_carry | 8
    set_limit 25 | 0";

type CountingBag = HashBag<u64, CountingState>;

// The bag with the counts of a text.
fn bag_of(alloc: Global, text: &str) -> Result<CountingBag, Fail> {
    bag_of_counts(
        alloc,
        CountingState::default(),
        counts(alloc, text)?.as_slice(),
    )
}

fn entry_value(bag: &mut CountingBag, value: u64) -> u64 {
    *bag.entry(value).value()
}

fn entry_text(alloc: Global, bag: &mut CountingBag, value: u64) -> Result<String, Fail> {
    let entry = bag.entry(value);
    Ok(format!(in alloc; "{entry:?}")?)
}

// `and_modify` that sets the count, and then `or_insert`.
fn set_or_insert(bag: &mut CountingBag, value: u64, n: usize) -> Result<usize, BagError> {
    bag.entry(value)
        .and_modify(|count: &mut usize| *count = n)?
        .or_insert()
}

// Puts the bag of a tree in the place of an empty one.
fn from_value(alloc: Global, bag: &mut CountingBag, text: &str) -> Result<(), Fail> {
    let tree = Value::from_str(alloc, text).ok().ok_or("a tree")?;
    *bag = HashBag::from_value(alloc, &tree).ok().ok_or("a bag")?;
    Ok(())
}

fn to_value(alloc: Global, bag: &CountingBag) -> bool {
    bag.to_value(alloc).is_ok()
}

// What a call returns doesn't matter here.
fn done<T: Drop>(_answer: T) -> Result<(), Fail> {
    Ok(())
}

// Makes a call, also one that the rows of calls lack.
fn make_call(alloc: Global, bag: &mut CountingBag, call: &str) -> Result<(), Fail> {
    let (verb, rest) = call.split_once(' ').unwrap_or((call, ""));
    match verb {
        "entry_value" => done(entry_value(bag, number(rest)?)),
        "entry_text" => done(entry_text(alloc, bag, number(rest)?)?),
        "set_or_insert" => {
            let (value, n) = halves(rest, " ")?;
            done(set_or_insert(bag, number(value)?, count(n)?)?)
        }
        "from_value" => from_value(alloc, bag, rest),
        "to_value" => done(to_value(alloc, bag)),
        _ => done(answer(alloc, bag, call)?),
    }
}

// Makes a call on a bag with these counts. Its text also says how often the bag's state hashes in it.
fn hashes_so_often(alloc: Global, before: &str, call: &str) -> Result<(), Fail> {
    let (call, wanted) = halves(call, "|")?;
    let mut bag = bag_of(alloc, before)?;
    let start = bag.hasher().hashed();
    make_call(alloc, &mut bag, call)?;
    let hashed = bag.hasher().hashed().saturating_sub(start);
    is_text(debug_of(alloc, &hashed)?.as_str(), wanted)
}

fn row_hashes_so_often(alloc: Global, row: &str) -> Result<(), Fail> {
    let (before, call) = halves(row, "|")?;
    hashes_so_often(alloc, before, call)
}

#[test]
fn calls_hash_so_often(rt: HostRuntime) -> Result<(), Fail> {
    for row in rows_of(rt.alloc(), CALLS)? {
        row.tested(row_hashes_so_often(rt.alloc(), row.text))?;
    }
    for row in rows_of(rt.alloc(), CALLS_IN_A_CARRY)? {
        row.tested(hashes_so_often(rt.alloc(), CARRYING, row.text))?;
    }
    Ok(())
}

// The state of a clone, which goes on from the number of the first one's, hashes each value once, and the first state nothing.
fn hashes_of_clone(bag: &HashBag<u64, CountingState>) -> Result<(u64, u64), BagError> {
    let start = bag.hasher().hashed();
    let clone = clone_of(bag)?;
    Ok((
        bag.hasher().hashed().saturating_sub(start),
        clone.hasher().hashed().saturating_sub(start),
    ))
}

fn is_hashed_once(alloc: Global, counts: &str, wanted: &str) -> Result<(), Fail> {
    let bag = bag_of(alloc, counts)?;
    let (by_first, by_clone) = hashes_of_clone(&bag)?;
    let got = format!(in alloc; "{by_first} {by_clone}")?;
    is_text_of("a clone", got.as_str(), wanted)
}

#[test]
fn clones_are_hashed_once(rt: HostRuntime) -> Result<(), Fail> {
    is_hashed_once(rt.alloc(), "1:1 2:5 3:2", "0 3")?;
    is_hashed_once(rt.alloc(), CARRYING, "0 25")
}

// How many texts a bag has, a call by a key on it, and how often its state hashes in the call. The texts are the numbers from 1 on, each
// once. With 25 of them the bag is in the middle of a carry, as above.
const CALLS_BY_A_KEY: &str = "
    0 | contains_key 7 | 1
    2 | contains_key 1 | 1
    2 | contains_key 7 | 1
    25 | contains_key 5 | 1
    25 | contains_key 20 | 1
    25 | contains_key 26 | 1
    2 | get_key 1 | 1
    2 | get_key 7 | 1
    25 | get_key 5 | 1
    25 | get_key 20 | 1
    25 | get_key 26 | 1
    0 | insert_key 7 | 1
    2 | insert_key 1 | 1
    2 | insert_key 7 | 1
    25 | insert_key 5 | 1
    25 | insert_key 20 | 1
    25 | insert_key 26 | 9
    2 | insert_many_key 1 | 1
    2 | insert_many_key 7 | 1
    25 | insert_many_key 20 | 1
    25 | insert_many_key 26 | 9
    2 | remove_key 1 | 1
    2 | remove_key 7 | 1
    25 | remove_key 5 | 1
    25 | remove_key 20 | 1
    25 | remove_key 26 | 1";

// A bag of the texts of the numbers from 1 to n, each once.
fn texts_to(alloc: Global, n: usize) -> Result<HashBag<String, CountingState>, Fail> {
    let mut bag = HashBag::with_hasher(alloc, CountingState::default());
    for number in 0..n {
        let text = format!(in alloc; "{}", number.saturating_add(1))?;
        bag.insert(text)?;
    }
    Ok(bag)
}

// Makes a call by a key.
fn call_by_a_key(bag: &mut HashBag<String, CountingState>, call: &str) -> Result<(), Fail> {
    let (verb, key) = halves(call, " ")?;
    match verb {
        "contains_key" => done(bag.contains(key)),
        "get_key" => done(bag.get(key).is_some()),
        "insert_key" => done(bag.insert_key(key)?),
        "insert_many_key" => done(bag.insert_many_key(key, 3)?),
        "remove_key" => done(bag.remove(key)),
        _ => Err(Fail::new(format_args!("no such call: {call}"))),
    }
}

fn key_hashes_so_often(alloc: Global, row: &str) -> Result<(), Fail> {
    let (n, rest) = halves(row, "|")?;
    let (call, wanted) = halves(rest, "|")?;
    let mut bag = texts_to(alloc, count(n)?)?;
    let start = bag.hasher().hashed();
    call_by_a_key(&mut bag, call)?;
    let hashed = bag.hasher().hashed().saturating_sub(start);
    is_text(debug_of(alloc, &hashed)?.as_str(), wanted)
}

#[test]
fn calls_by_a_key_hash_so_often(rt: HostRuntime) -> Result<(), Fail> {
    for row in rows_of(rt.alloc(), CALLS_BY_A_KEY)? {
        row.tested(key_hashes_so_often(rt.alloc(), row.text))?;
    }
    Ok(())
}
