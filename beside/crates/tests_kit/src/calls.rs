//! Rows of calls on a bag of numbers.
//!
//! A row is a line such as `insert_many 2 4 = 3`: a call and what it returns, as `Debug` writes it. If the call can fail, the row has
//! the value in `Ok`, or the name of the error. A line such as `[inserts]` names the rows after it, which are on a new bag.
//!
//! The calls with each kind of arguments are made by one function, which has no contract. So the proof carries nothing from one call to the
//! next.
use crate::rows::{failure_text, rows_of};
use crate::states::{IdentityState, OneState, ParityState};
use crate::texts::{count, counts, debug_of, halves, is_text, number, values};
use hashbag::{BagError, FixedState, HashBag};
use std::alloc::Global;
use std::fmt::Debug;
use std::hash::{BuildHasher, Hash};
use std::test::Fail;

// A value with its count.
type Count = (u64, usize);

// Returns the text of what a call returned in `Ok`, or of its error.
fn text_of<T: Debug + Drop>(alloc: Global, answered: Result<T, BagError>) -> Result<String, Fail> {
    match answered {
        Ok(answer) => debug_of(alloc, &answer),
        Err(error) => debug_of(alloc, &error),
    }
}

fn no_call(verb: &str) -> Result<String, Fail> {
    Err(Fail::new(format_args!("no such call: {verb}")))
}

/// Inserts a value.
pub fn insert<T: Eq + Hash + Drop, S: BuildHasher + Drop>(
    bag: &mut HashBag<T, S>,
    value: T,
) -> Result<usize, BagError> {
    bag.insert(value)
}

fn insert_many<S: BuildHasher + Drop>(
    bag: &mut HashBag<u64, S>,
    value: u64,
    n: usize,
) -> Result<usize, BagError> {
    bag.insert_many(value, n)
}

/// Replaces a value.
pub fn replace<T: Eq + Hash + Drop, S: BuildHasher + Drop>(
    bag: &mut HashBag<T, S>,
    value: T,
) -> Result<usize, BagError> {
    bag.replace(value)
}

/// Removes one of a value.
pub fn remove<S: BuildHasher + Drop>(bag: &mut HashBag<u64, S>, value: u64) -> usize {
    bag.remove(&value)
}

fn try_take<S: BuildHasher + Drop>(
    bag: &mut HashBag<u64, S>,
    value: u64,
) -> Result<u64, Option<Count>> {
    match bag.try_take(&value) {
        Ok(taken) => Ok(taken),
        Err(Some((stored, before))) => Err(Some((*stored, before))),
        Err(None) => Err(None),
    }
}

fn get<S: BuildHasher + Drop>(bag: &HashBag<u64, S>, value: u64) -> Option<Count> {
    match bag.get(&value) {
        Some((stored, count)) => Some((*stored, count)),
        None => None,
    }
}

// Drops a drain after one item, and returns whether there was one.
fn drain_one<S: BuildHasher + Drop>(bag: &mut HashBag<u64, S>) -> bool {
    let mut drain = bag.drain();
    drain.next().is_some()
}

// Returns how many values a drain gives.
fn drain<S: BuildHasher + Drop>(bag: &mut HashBag<u64, S>) -> usize {
    bag.drain().count()
}

// Returns whether there is room for `n` more values.
fn has_room<S: BuildHasher + Drop>(bag: &HashBag<u64, S>, n: usize) -> bool {
    bag.capacity() >= bag.set_len().saturating_add(n)
}

// Returns the number of slots of the newer table, the number of waiting slots of the older table, and the room.
fn tables<S: BuildHasher + Drop>(bag: &HashBag<u64, S>) -> (usize, usize, usize) {
    (bag.slots(), bag.waiting(), bag.room())
}

// Makes an entry that is dropped at once.
fn entry<S: BuildHasher + Drop>(bag: &mut HashBag<u64, S>, value: u64) {
    let _ = bag.entry(value);
}

// Calls `and_modify` with a closure that sets the count.
fn set<S: BuildHasher + Drop>(
    bag: &mut HashBag<u64, S>,
    value: u64,
    n: usize,
) -> Result<(), BagError> {
    match bag.entry(value).and_modify(|count: &mut usize| *count = n) {
        Ok(_) => Ok(()),
        Err(error) => Err(error),
    }
}

// Calls `and_modify` with a closure that adds to the count.
fn raise<S: BuildHasher + Drop>(
    bag: &mut HashBag<u64, S>,
    value: u64,
    n: usize,
) -> Result<(), BagError> {
    let more = |count: &mut usize| *count = count.saturating_add(n);
    match bag.entry(value).and_modify(more) {
        Ok(_) => Ok(()),
        Err(error) => Err(error),
    }
}

fn retain_none<S: BuildHasher + Drop>(bag: &mut HashBag<u64, S>) {
    bag.retain(|_value: &u64, _count: usize| 0);
}

// Keeps all occurrences of the odd values.
fn retain_odd<S: BuildHasher + Drop>(bag: &mut HashBag<u64, S>) {
    bag.retain(|value: &u64, _count: usize| if *value % 2 == 0 { 0 } else { usize::MAX });
}

// Keeps at most v occurrences of each value v, and returns how often the closure was called.
fn retain_own_number<S: BuildHasher + Drop>(bag: &mut HashBag<u64, S>) -> usize {
    let mut calls = 0usize;
    bag.retain(|value: &u64, _count: usize| {
        calls = calls.saturating_add(1);
        *value as usize
    });
    calls
}

// Puts an empty bag in the place of this one.
fn default_in<S: BuildHasher + Default + Drop>(alloc: Global, bag: &mut HashBag<u64, S>) {
    *bag = HashBag::default_in(alloc);
}

// Puts an empty bag with this limit in the place of this one.
fn with_limit<S: BuildHasher + Default + Drop>(
    alloc: Global,
    bag: &mut HashBag<u64, S>,
    most: usize,
) {
    *bag = HashBag::with_limit(alloc, S::default(), most);
}

fn with_capacity<S: BuildHasher + Default + Drop>(
    alloc: Global,
    bag: &mut HashBag<u64, S>,
    n: usize,
) -> Result<(), BagError> {
    *bag = HashBag::with_capacity_and_hasher(alloc, n, S::default())?;
    Ok(())
}

fn from_iter<S: BuildHasher + Default + Drop>(
    alloc: Global,
    bag: &mut HashBag<u64, S>,
    items: &[u64],
) -> Result<(), BagError> {
    *bag = HashBag::from_iter(alloc, items.iter().copied())?;
    Ok(())
}

fn from_counts<S: BuildHasher + Default + Drop>(
    alloc: Global,
    bag: &mut HashBag<u64, S>,
    pairs: &[Count],
) -> Result<(), BagError> {
    *bag = HashBag::from_counts(alloc, pairs.iter().copied())?;
    Ok(())
}

fn extend<S: BuildHasher + Drop>(bag: &mut HashBag<u64, S>, items: &[u64]) -> Result<(), BagError> {
    bag.extend(items.iter().copied())
}

fn extend_refs<S: BuildHasher + Drop>(
    bag: &mut HashBag<u64, S>,
    items: &[u64],
) -> Result<(), BagError> {
    bag.extend_refs(items.iter())
}

fn extend_many<S: BuildHasher + Drop>(
    bag: &mut HashBag<u64, S>,
    pairs: &[Count],
) -> Result<(), BagError> {
    bag.extend_many(pairs.iter().copied())
}

fn extend_refs_many<S: BuildHasher + Drop>(
    bag: &mut HashBag<u64, S>,
    pairs: &[Count],
) -> Result<(), BagError> {
    bag.extend_refs_many(pairs.iter().map(|pair| (&pair.0, pair.1)))
}

/// Returns the counts of these values.
pub fn counts_of<S: BuildHasher + Drop>(
    alloc: Global,
    bag: &HashBag<u64, S>,
    values: &[u64],
) -> Result<String, Fail> {
    let mut counts = Vec::new(alloc);
    for value in values {
        counts.push(bag.contains(value))?;
    }
    debug_of(alloc, &counts)
}

/// Returns a bag of these values, inserted one by one.
pub fn bag_of<S: BuildHasher + Drop>(
    alloc: Global,
    state: S,
    values: &[u64],
) -> Result<HashBag<u64, S>, Fail> {
    let mut bag = HashBag::with_hasher(alloc, state);
    for value in values {
        insert(&mut bag, *value)?;
    }
    Ok(bag)
}

/// Returns a bag of these values, each inserted as often as its number.
pub fn bag_of_counts<S: BuildHasher + Drop>(
    alloc: Global,
    state: S,
    pairs: &[Count],
) -> Result<HashBag<u64, S>, Fail> {
    let mut bag = HashBag::with_hasher(alloc, state);
    for (value, n) in pairs {
        insert_many(&mut bag, *value, *n)?;
    }
    Ok(bag)
}

/// Returns a clone of a bag.
pub fn clone_of<S: BuildHasher + Clone + Drop>(
    bag: &HashBag<u64, S>,
) -> Result<HashBag<u64, S>, BagError> {
    bag.clone()
}

// Compares the bag with a bag of these values, in both directions.
fn equals<S: BuildHasher + Default + Drop>(
    alloc: Global,
    bag: &HashBag<u64, S>,
    values: &[u64],
) -> Result<String, Fail> {
    let other = bag_of(alloc, S::default(), values)?;
    debug_of(alloc, &(*bag == other, other == *bag))
}

// Returns the text of what a call without arguments returns.
fn with_nothing<S: BuildHasher + Default + Drop>(
    alloc: Global,
    bag: &mut HashBag<u64, S>,
    verb: &str,
) -> Result<String, Fail> {
    match verb {
        "default_in" => debug_of(alloc, &default_in(alloc, bag)),
        "len" => debug_of(alloc, &bag.len()),
        "set_len" => debug_of(alloc, &bag.set_len()),
        "is_empty" => debug_of(alloc, &bag.is_empty()),
        "limit" => debug_of(alloc, &bag.limit()),
        "capacity" => debug_of(alloc, &bag.capacity()),
        "tables" => debug_of(alloc, &tables(bag)),
        "waiting" => debug_of(alloc, &bag.waiting()),
        "iter.count" => debug_of(alloc, &bag.iter().count()),
        "set_iter.count" => debug_of(alloc, &bag.set_iter().count()),
        "clear" => debug_of(alloc, &bag.clear()),
        "finish_carry" => debug_of(alloc, &bag.finish_carry()),
        "drain" => debug_of(alloc, &drain(bag)),
        "drain_one" => debug_of(alloc, &drain_one(bag)),
        "shrink_to_fit" => text_of(alloc, bag.shrink_to_fit()),
        "retain_none" => debug_of(alloc, &retain_none(bag)),
        "retain_odd" => debug_of(alloc, &retain_odd(bag)),
        "retain_own_number" => debug_of(alloc, &retain_own_number(bag)),
        _ => with_walk(alloc, bag, verb),
    }
}

// Returns the text of a bag or a walk, or of the size hint of a walk.
fn with_walk<S: BuildHasher + Default + Drop>(
    alloc: Global,
    bag: &mut HashBag<u64, S>,
    verb: &str,
) -> Result<String, Fail> {
    match verb {
        "debug" => debug_of(alloc, bag),
        "iter.debug" => debug_of(alloc, &bag.iter()),
        "iter.hint" => debug_of(alloc, &bag.iter().size_hint()),
        "set_iter.debug" => debug_of(alloc, &bag.set_iter()),
        "set_iter.hint" => debug_of(alloc, &bag.set_iter().size_hint()),
        "drain.debug" => debug_of(alloc, &bag.drain()),
        "drain.hint" => debug_of(alloc, &bag.drain().size_hint()),
        _ => no_call(verb),
    }
}

// Returns the text of what a call with one number returns: a value, or how many values.
fn with_number<S: BuildHasher + Default + Drop>(
    alloc: Global,
    bag: &mut HashBag<u64, S>,
    verb: &str,
    value: u64,
) -> Result<String, Fail> {
    match verb {
        "insert" => text_of(alloc, insert(bag, value)),
        "replace" => text_of(alloc, replace(bag, value)),
        "remove" => debug_of(alloc, &remove(bag, value)),
        "try_take" => debug_of(alloc, &try_take(bag, value)),
        "take_one" => debug_of(alloc, &bag.take_one(&value)),
        "take_all" => debug_of(alloc, &bag.take_all(&value)),
        "contains" => debug_of(alloc, &bag.contains(&value)),
        "get" => debug_of(alloc, &get(bag, value)),
        "entry" => debug_of(alloc, &entry(bag, value)),
        "or_insert" => text_of(alloc, bag.entry(value).or_insert()),
        "with_capacity" => text_of(alloc, with_capacity(alloc, bag, value as usize)),
        "with_limit" => debug_of(alloc, &with_limit(alloc, bag, value as usize)),
        "set_limit" => text_of(alloc, bag.set_limit(value as usize)),
        "reserve" => text_of(alloc, bag.reserve(value as usize)),
        "has_room" => debug_of(alloc, &has_room(bag, value as usize)),
        _ => no_call(verb),
    }
}

// Returns the text of what a call on a value with a count returns.
fn with_count<S: BuildHasher + Drop>(
    alloc: Global,
    bag: &mut HashBag<u64, S>,
    verb: &str,
    value: u64,
    n: usize,
) -> Result<String, Fail> {
    match verb {
        "insert_many" => text_of(alloc, insert_many(bag, value, n)),
        "set_count" => text_of(alloc, bag.set_count(value, n)),
        "remove_up_to" => debug_of(alloc, &bag.remove_up_to(&value, n)),
        "set" => text_of(alloc, set(bag, value, n)),
        "raise" => text_of(alloc, raise(bag, value, n)),
        "or_insert_many" => text_of(alloc, bag.entry(value).or_insert_many(n)),
        _ => no_call(verb),
    }
}

// Returns the text of what a call on a list of values returns.
fn with_values<S: BuildHasher + Default + Drop>(
    alloc: Global,
    bag: &mut HashBag<u64, S>,
    verb: &str,
    values: &[u64],
) -> Result<String, Fail> {
    match verb {
        "from_iter" => text_of(alloc, from_iter(alloc, bag, values)),
        "extend" => text_of(alloc, extend(bag, values)),
        "extend_refs" => text_of(alloc, extend_refs(bag, values)),
        "counts" => counts_of(alloc, bag, values),
        "insert_each" => {
            *bag = bag_of(alloc, S::default(), values)?;
            debug_of(alloc, &())
        }
        "equals" => equals(alloc, bag, values),
        _ => no_call(verb),
    }
}

// Returns the text of what a call on a list of values with counts returns.
fn with_counts<S: BuildHasher + Default + Drop>(
    alloc: Global,
    bag: &mut HashBag<u64, S>,
    verb: &str,
    pairs: &[Count],
) -> Result<String, Fail> {
    match verb {
        "from_counts" => text_of(alloc, from_counts(alloc, bag, pairs)),
        "extend_many" => text_of(alloc, extend_many(bag, pairs)),
        "extend_refs_many" => text_of(alloc, extend_refs_many(bag, pairs)),
        _ => no_call(verb),
    }
}

/// Returns the text of what a call returns. Its arguments decide its kind.
pub fn answer<S: BuildHasher + Default + Drop>(
    alloc: Global,
    bag: &mut HashBag<u64, S>,
    call: &str,
) -> Result<String, Fail> {
    let Some((verb, rest)) = call.split_once(' ') else {
        return with_nothing(alloc, bag, call);
    };
    if rest.starts_with('[') {
        return with_values(alloc, bag, verb, values(alloc, rest)?.as_slice());
    }
    if rest.contains(':') {
        return with_counts(alloc, bag, verb, counts(alloc, rest)?.as_slice());
    }
    match rest.split_once(' ') {
        Some((value, n)) => with_count(alloc, bag, verb, number(value)?, count(n)?),
        None => with_number(alloc, bag, verb, number(rest)?),
    }
}

// Makes the call of a row, and compares what it returns.
fn make_row<S: BuildHasher + Default + Drop>(
    alloc: Global,
    bag: &mut HashBag<u64, S>,
    row: &str,
) -> Result<(), Fail> {
    let (call, want) = halves(row, " = ")?;
    let got = answer(alloc, bag, call)?;
    is_text(got.as_str(), want)
}

/// Makes the calls of the rows in turn.
pub fn make_calls<S: BuildHasher + Default + Drop>(
    alloc: Global,
    bag: &mut HashBag<u64, S>,
    rows: &'static str,
) -> Result<(), Fail> {
    for row in rows_of(alloc, rows)? {
        row.tested(make_row(alloc, bag, row.text))?;
    }
    Ok(())
}

/// Makes the call of a single row.
pub fn make_call<S: BuildHasher + Default + Drop>(
    alloc: Global,
    bag: &mut HashBag<u64, S>,
    text: &'static str,
) -> Result<(), Fail> {
    make_calls(alloc, bag, text)
}

// Puts a new bag in the place of this one.
fn renew<S: BuildHasher + Drop>(alloc: Global, state: S, bag: &mut HashBag<u64, S>) {
    *bag = HashBag::with_hasher(alloc, state);
}

/// Makes the calls of the rows. Those after a line such as `[inserts]` are on a new bag.
pub fn make_rows<S: BuildHasher + Default + Copy>(
    alloc: Global,
    state: S,
    rows: &'static str,
) -> Result<(), Fail> {
    let mut bag = HashBag::with_hasher(alloc, state);
    for row in rows_of(alloc, rows)? {
        if row.text.starts_with('[') {
            renew(alloc, state, &mut bag);
        } else {
            row.tested(make_row(alloc, &mut bag, row.text))?;
        }
    }
    Ok(())
}

/// Makes the calls of the rows under each hash state. A failure says under which.
pub fn make_rows_under_each(alloc: Global, rows: &'static str) -> Result<(), Fail> {
    under("FixedState", make_rows(alloc, FixedState::new(), rows))?;
    under("OneState", make_rows(alloc, OneState, rows))?;
    under("ParityState", make_rows(alloc, ParityState, rows))?;
    under("IdentityState", make_rows(alloc, IdentityState, rows))
}

// Returns what rows returned. A failure also says the state.
fn under(state: &str, outcome: Result<(), Fail>) -> Result<(), Fail> {
    let Err(fail) = outcome else {
        return Ok(());
    };
    let why = failure_text(fail);
    Err(Fail::new(format_args!("under {state}: {}", why.as_str())))
}
