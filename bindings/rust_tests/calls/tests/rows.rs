//! The rows of the specification: calls and what they return, found by hand. They are read from the texts of the crate `tests_rows`, by which the
//! proved bag is tested, and made under the same four hash states.
//!
//! Not tried here: rows of JSON (`trees`), which serde has; of `try_extend` (`tries`), which this crate lacks; of bytes and memory (`own_bytes`,
//! `heaps`); and CLONE of `tables`, since a copy here waits as its original does.
use hashbag::{BagError, Entry, HashBag};
use std::fmt::Debug;
use std::hash::{BuildHasher, BuildHasherDefault, DefaultHasher, Hasher};
use std::panic::{AssertUnwindSafe, catch_unwind};
use std::path::Path;

/// Returns the text of a constant of a file of `tests_rows`.
fn text(file: &str, name: &str) -> String {
    let path = Path::new(env!("CARGO_MANIFEST_DIR")).join(format!("../../../beside/crates/tests_rows/src/tests/{file}.rs"));
    let all = std::fs::read_to_string(&path).unwrap_or_else(|_| panic!("no {}", path.display()));
    let (_, rest) = all.split_once(&format!("const {name}: &str = \"")).unwrap_or_else(|| panic!("no {name} in {file}"));
    rest.split_once("\";").expect("an end").0.to_string()
}

/// Makes the rows of a text, which has some.
fn rows(file: &str, name: &str, mut each: impl FnMut(&str)) {
    let text = text(file, name);
    let rows: Vec<&str> = text.lines().map(str::trim).filter(|row| !row.is_empty() && !row.starts_with('#')).collect();
    assert!(!rows.is_empty(), "no rows of {name} in {file}");
    for row in rows {
        each(row);
    }
}

/// Splits a row in two.
fn halves<'a>(row: &'a str, by: &str) -> (&'a str, &'a str) {
    row.split_once(by).unwrap_or_else(|| panic!("no `{by}` in the row: {row}"))
}

fn number(text: &str) -> u64 {
    text.parse().unwrap_or_else(|_| panic!("no number: {text}"))
}

fn count(text: &str) -> usize {
    text.parse().unwrap_or_else(|_| panic!("no count: {text}"))
}

/// The numbers of `5` or of `1..=25`.
fn range(text: &str) -> std::ops::RangeInclusive<u64> {
    match text.split_once("..=") {
        Some((first, last)) => number(first)..=number(last),
        None => number(text)..=number(text),
    }
}

/// The values of `[1, 2, 5..=9]`.
fn values(text: &str) -> Vec<u64> {
    let inner = text.strip_prefix('[').and_then(|it| it.strip_suffix(']')).unwrap_or_else(|| panic!("no list: {text}"));
    inner.split(", ").filter(|it| !it.is_empty()).flat_map(range).collect()
}

/// The values with counts of `1:2 5..=9:1`.
fn pairs(text: &str) -> Vec<(u64, usize)> {
    let words = text.split(' ').filter(|it| !it.is_empty());
    words.map(|it| halves(it, ":")).flat_map(|(values, n)| range(values).map(move |v| (v, count(n)))).collect()
}

/// What a hash state of `tests_kit` does.
trait State: BuildHasher + Default + Clone + 'static {}

impl<S: BuildHasher + Default + Clone + 'static> State for S {}

type FixedState = BuildHasherDefault<DefaultHasher>;

/// Hashes to the last eight bytes, modulo MODULUS; 0 is no modulus. As `OneState`, `ParityState` and `IdentityState` of `tests_kit`.
#[derive(Clone, Default)]
struct LastNumber<const MODULUS: u64>(u64);

impl<const MODULUS: u64> Hasher for LastNumber<MODULUS> {
    fn finish(&self) -> u64 {
        self.0.checked_rem(MODULUS).unwrap_or(self.0)
    }

    fn write(&mut self, bytes: &[u8]) {
        for byte in bytes {
            self.0 = (self.0 >> 8) + (u64::from(*byte) << 56);
        }
    }
}

type OneState = BuildHasherDefault<LastNumber<1>>;
type ParityState = BuildHasherDefault<LastNumber<2>>;
type IdentityState = BuildHasherDefault<LastNumber<0>>;

type Bag<S> = HashBag<u64, S>;

fn debug(value: &dyn Debug) -> String {
    format!("{value:?}")
}

/// The text of what a call returned in `Ok`, or of its error.
fn said<T: Debug>(result: Result<T, BagError>) -> String {
    match result {
        Ok(value) => debug(&value),
        Err(error) => debug(&error),
    }
}

/// The same of a call that has no other way to report an error than a panic.
fn said_or_panicked<T: Debug>(call: impl FnOnce() -> T) -> String {
    match catch_unwind(AssertUnwindSafe(call)) {
        Ok(value) => debug(&value),
        Err(panic) => match panic.downcast_ref::<&str>() {
            Some(&"the total would pass the bag's limit") => "TooMany".to_string(),
            Some(&"no memory for the bag") => "Memory".to_string(),
            other => panic!("another panic: {other:?}"),
        },
    }
}

fn bag_of<S: State>(values: &[u64]) -> Bag<S> {
    let mut bag = Bag::default();
    for value in values {
        bag.insert(*value);
    }
    bag
}

/// What a call without arguments returns.
fn with_nothing<S: State>(bag: &mut Bag<S>, call: &str) -> String {
    let mut calls = 0usize;
    match call {
        "default_in" => debug(&(*bag = Bag::default())),
        "len" => debug(&bag.len()),
        "set_len" => debug(&bag.set_len()),
        "is_empty" => debug(&bag.is_empty()),
        "limit" => debug(&bag.limit()),
        "capacity" => debug(&bag.capacity()),
        "tables" => debug(&(bag.slots(), bag.waiting(), bag.room())),
        "waiting" => debug(&bag.waiting()),
        "iter.count" => debug(&bag.iter().count()),
        "iter.hint" => debug(&bag.iter().size_hint()),
        "iter.debug" => debug(&bag.iter()),
        "set_iter.count" => debug(&bag.set_iter().count()),
        "set_iter.hint" => debug(&bag.set_iter().size_hint()),
        "set_iter.debug" => debug(&bag.set_iter()),
        // Only a bag with a `RandomState` has `Debug`.
        "debug" => debug(&bag.set_iter().map(|(value, n)| (*value, n)).collect::<HashBag<u64>>()),
        "clear" => debug(&bag.clear()),
        "finish_carry" => debug(&bag.finish_carry()),
        "drain" => debug(&bag.drain().count()),
        "drain_one" => debug(&bag.drain().next().is_some()),
        "drain.hint" => debug(&bag.drain().size_hint()),
        "drain.debug" => debug(&bag.drain()),
        "shrink_to_fit" => said(bag.try_shrink_to_fit()),
        "retain_none" => debug(&bag.retain(|_, _| 0)),
        "retain_odd" => debug(&bag.retain(|value, _| if value % 2 == 0 { 0 } else { usize::MAX })),
        "retain_own_number" => {
            bag.retain(|value, _| {
                calls += 1;
                *value as usize
            });
            debug(&calls)
        }
        _ => panic!("no such call: {call}"),
    }
}

/// What a call with a number returns.
fn with_number<S: State>(bag: &mut Bag<S>, call: &str, value: u64) -> String {
    let n = value as usize;
    match call {
        "insert" => said(bag.try_insert(value)),
        "replace" => said(bag.try_replace(value)),
        "remove" => debug(&bag.remove(&value)),
        "try_take" => debug(&bag.try_take(&value)),
        "take_one" => debug(&bag.try_take(&value).map_err(|left| left.map_or(0, |(_, before)| before))),
        "take_all" => debug(&bag.take_all(&value)),
        "contains" => debug(&bag.contains(&value)),
        "get" => debug(&bag.get(&value)),
        "entry" => debug(&drop(bag.entry(value))),
        "or_insert" => said(bag.entry(value).try_or_insert_many(1)),
        "with_capacity" => said(Bag::try_with_capacity_and_hasher(n, S::default()).map(|made| *bag = made)),
        "with_limit" => debug(&(*bag = Bag::with_limit(n, S::default()))),
        "set_limit" => said(bag.set_limit(n)),
        "reserve" => said(bag.try_reserve(n)),
        "has_room" => debug(&(bag.capacity() >= bag.set_len().saturating_add(n))),
        _ => panic!("no such call: {call}"),
    }
}

/// What a call with a value and a count returns.
fn with_count<S: State>(bag: &mut Bag<S>, call: &str, value: u64, n: usize) -> String {
    fn done<S>(entry: Entry<'_, u64, S>) {
        drop(entry);
    }
    match call {
        "insert_many" => said(bag.try_insert_many(value, n)),
        "set_count" => said(bag.try_set_count(value, n)),
        "remove_up_to" => debug(&bag.remove_up_to(&value, n)),
        "set" => said(bag.entry(value).try_and_modify(|count| *count = n).map(done)),
        "raise" => said(bag.entry(value).try_and_modify(|count| *count = count.saturating_add(n)).map(done)),
        "or_insert_many" => said(bag.entry(value).try_or_insert_many(n)),
        _ => panic!("no such call: {call}"),
    }
}

/// What a call with a list of values returns.
fn with_values<S: State>(bag: &mut Bag<S>, call: &str, values: &[u64]) -> String {
    match call {
        "from_iter" => said_or_panicked(|| *bag = values.iter().copied().collect()),
        "extend" => said_or_panicked(|| bag.extend(values.iter().copied())),
        "extend_refs" => said_or_panicked(|| bag.extend(values)),
        "insert_each" => debug(&(*bag = bag_of(values))),
        "counts" => debug(&values.iter().map(|it| bag.contains(it)).collect::<Vec<_>>()),
        "equals" => {
            let other = bag_of(values);
            debug(&(*bag == other, other == *bag))
        }
        _ => panic!("no such call: {call}"),
    }
}

/// What a call with values and counts returns.
fn with_counts<S: State>(bag: &mut Bag<S>, call: &str, pairs: &[(u64, usize)]) -> String {
    match call {
        "from_counts" => said_or_panicked(|| *bag = pairs.iter().copied().collect()),
        "extend_many" => said_or_panicked(|| bag.extend(pairs.iter().copied())),
        "extend_refs_many" => said_or_panicked(|| bag.extend(pairs.iter().map(|(value, n)| (value, *n)))),
        _ => panic!("no such call: {call}"),
    }
}

/// What the call of a row returns.
fn answer<S: State>(bag: &mut Bag<S>, call: &str) -> String {
    let Some((verb, rest)) = call.split_once(' ') else { return with_nothing(bag, call) };
    if rest.starts_with('[') {
        return with_values(bag, verb, &values(rest));
    }
    if rest.contains(':') {
        return with_counts(bag, verb, &pairs(rest));
    }
    match rest.split_once(' ') {
        Some((value, n)) => with_count(bag, verb, number(value), count(n)),
        None => with_number(bag, verb, number(rest)),
    }
}

/// Makes rows of calls under a state. A row as `[inserts]` begins with a new bag.
fn calls<S: State>(file: &str, name: &str) {
    let mut bag: Bag<S> = Bag::default();
    rows(file, name, |row| {
        if row.starts_with('[') {
            bag = Bag::default();
            return;
        }
        let (call, wanted) = halves(row, " = ");
        assert_eq!(answer(&mut bag, call), wanted, "of the row: {row}");
    });
}

fn calls_under_each(file: &str, name: &str) {
    calls::<FixedState>(file, name);
    calls::<OneState>(file, name);
    calls::<ParityState>(file, name);
    calls::<IdentityState>(file, name);
}

#[test]
fn single_calls() {
    calls_under_each("calls", "ROWS");
    calls_under_each("entries", "ROWS");
    calls_under_each("walks", "ROWS");
}

#[test]
fn collections() {
    calls_under_each("collections", "ROWS");
    calls_under_each("collections", "EQUAL_ROWS");
}

#[test]
fn limits() {
    calls_under_each("limits", "ROWS");
    calls_under_each("limits", "KEPT");
}

#[test]
fn tables() {
    calls_under_each("tables", "ROWS");
    calls::<OneState>("tables", "ONE_ROWS");
    rows("tables", "BEGINNINGS", |row| {
        let (n, wanted) = halves(row, " = ");
        let (fixed, one) = (Bag::<FixedState>::with_capacity_and_hasher(count(n), Default::default()), Bag::<OneState>::default());
        assert_eq!(debug(&(fixed.slots(), fixed.capacity())), wanted, "{row}");
        let mut one = one;
        one.reserve(count(n));
        assert_eq!(debug(&(one.slots(), one.capacity())), wanted, "{row}");
    });
}

/// The items of a join, in ascending order. Those of the first bag come first in the two joins that have others.
fn join<S: State, S2: State>(join: &str, a: &Bag<S>, b: &Bag<S2>) -> String {
    fn rising<T: Ord + Debug>(items: impl Iterator<Item = T>) -> String {
        let mut items: Vec<T> = items.collect();
        items.sort();
        debug(&items)
    }
    let is_first = |value: &u64| a.contains(value) > 0;
    assert!(a.outer_join(b).is_sorted_by_key(|(value, ..)| !is_first(value)), "a value of the first bag comes late");
    assert!(a.signed_difference(b).is_sorted_by_key(|(value, _)| !is_first(value)), "a value of the first bag comes late");
    match join {
        "outer_join" => rising(a.outer_join(b)),
        "difference" => rising(a.difference(b)),
        "signed_difference" => rising(a.signed_difference(b)),
        "not_in" => rising(a.not_in(b)),
        _ => panic!("no such join: {join}"),
    }
}

fn joins_under<S: State, S2: State>() {
    fn made<S: State>(text: &str) -> Bag<S> {
        if text.starts_with('[') { bag_of(&values(text)) } else { pairs(text).into_iter().collect() }
    }
    rows("joins", "ROWS", |row| {
        let parts: Vec<&str> = row.split('|').map(str::trim).collect();
        let [name, a, b, wanted] = parts[..] else { panic!("not four parts: {row}") };
        assert_eq!(join(name, &made::<S>(a), &made::<S2>(b)), wanted, "of the row: {row}");
    });
}

#[test]
fn joins() {
    joins_under::<OneState, IdentityState>();
    joins_under::<IdentityState, OneState>();
    joins_under::<FixedState, ParityState>();
    joins_under::<ParityState, FixedState>();
}

/// What a step of a run replies.
fn reply<S: State>(bag: &mut Bag<S>, step: &str) -> String {
    fn counted(result: Result<usize, BagError>) -> String {
        result.map_or_else(|error| debug(&error), |n| format!("Count({n})"))
    }
    let (verb, rest) = halves(step, " ");
    match verb {
        "count" => format!("Count({})", bag.contains(&number(rest))),
        "replace" => counted(bag.try_replace(number(rest))),
        "retain" => {
            let most = if rest == "none" { Vec::new() } else { pairs(rest) };
            bag.retain(|value, _| most.iter().find(|(it, _)| it == value).map_or(0, |(_, n)| *n));
            "Done".to_string()
        }
        _ => {
            let (value, n) = halves(rest, ":");
            let (value, n) = (number(value), count(n));
            match verb {
                "insert_many" => counted(bag.try_insert_many(value, n)),
                "or" => counted(bag.entry(value).try_or_insert_many(n)),
                "set" => bag.entry(value).try_and_modify(|count| *count = n).map_or_else(|error| debug(&error), |_| "Done".to_string()),
                _ => panic!("no such step: {step}"),
            }
        }
    }
}

fn replies_under<S: State>() {
    for (name, total) in [("RUN_ROWS", 0), ("FULL_ROWS", 1)] {
        let mut bag: Bag<S> = Bag::default();
        rows("replies", name, |row| {
            let (step, wanted) = halves(row, " = ");
            assert_eq!(reply(&mut bag, step), wanted, "of the row: {row}");
        });
        assert_eq!(bag.len(), total, "{name}");
    }
}

#[test]
fn replies() {
    replies_under::<FixedState>();
    replies_under::<OneState>();
    replies_under::<ParityState>();
    replies_under::<IdentityState>();
}

/// Makes the runs of a text: what they leave of the tables, and the slots of all tables that were made.
fn runs_under<S: State>(name: &str) {
    rows("bounds", name, |row| {
        let (run, wanted) = halves(row, " = ");
        let words: Vec<&str> = run.split(' ').collect();
        let (mut bag, mut built): (Bag<S>, usize) = Default::default();
        for value in 1..=number(words[1]) {
            if words[0] == "limited" {
                bag.set_limit(value as usize).unwrap();
            }
            let was_full = bag.room() == 0;
            bag.insert(value);
            built += if was_full { bag.slots() } else { 0 };
            match words[0] {
                "in_and_out" => assert_eq!(bag.remove(&value), 1),
                "window" if value > 8 => assert_eq!(bag.remove(&(value - 8)), 1),
                _ => (),
            }
        }
        for word in &words[2..] {
            match *word {
                "clear" => bag.clear(),
                "shrink" => bag.shrink_to_fit(),
                _ => panic!("no such end: {word}"),
            }
        }
        for want in wanted.split(", ") {
            let (what, n) = halves(want, " ");
            let found = match what {
                "slots" => bag.slots(),
                "waiting" => bag.waiting(),
                "room" => bag.room(),
                "set_len" => bag.set_len(),
                "built" => built,
                _ => panic!("no such number: {what}"),
            };
            assert_eq!(found, count(n), "{what} of the row: {row}");
        }
    });
}

#[test]
fn runs() {
    runs_under::<FixedState>("ALL_ROWS");
    runs_under::<OneState>("ALL_ROWS");
    runs_under::<ParityState>("ALL_ROWS");
    runs_under::<IdentityState>("ALL_ROWS");
    runs_under::<OneState>("ONE_ROWS");
    runs_under::<IdentityState>("IDENTITY_ROWS");
    runs_under::<FixedState>("MANY_ROWS");
}
