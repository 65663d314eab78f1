//! Bags of values that count their drops and whose hashes are all alike: calls that find no room, and a bag in the middle of a carry.
use crate::checks::{Refusals, Wrong, check};
use crate::counted::{Counted, Values};
use crate::counts::tables_of;
use crate::full_runs::{run_without_room, runs_without_room};
use hashbag::{BagError, HashBag};
use std::alloc::Global;
use std::hash::Hash;
use tests_kit::OneState;

/// A bag of such values.
pub type Bag<'a> = HashBag<Counted<'a>, OneState>;

// Inserts a value, and returns the count before. `None` if it failed.
fn insert<'a>(
    bag: &mut Bag<'a>,
    values: &'a Values,
    key: u64,
    refusals: &mut Refusals,
) -> Result<Option<usize>, Wrong> {
    refusals.answer(bag.insert(values.value(key)))
}

fn count<'a>(bag: &Bag<'a>, values: &'a Values, key: u64) -> usize {
    bag.contains(&values.value(key))
}

// Checks that the bag has the values from 1 to `last` once each, and no other.
fn has_first<'a>(
    bag: &Bag<'a>,
    values: &'a Values,
    last: u64,
    wrong: &'static str,
) -> Result<(), Wrong> {
    for key in 1..=last {
        check(count(bag, values, key) == 1, wrong)?;
    }
    let number = last as usize;
    check((bag.len(), bag.set_len()) == (number, number), wrong)
}

/// A bag of the values from 1 to `last`, each inserted once. `None` if one failed: the bag then had those before it.
pub fn filled<'a>(
    alloc: Global,
    values: &'a Values,
    last: u64,
    refusals: &mut Refusals,
) -> Result<Option<Bag<'a>>, Wrong> {
    let mut bag = HashBag::with_hasher(alloc, OneState);
    for key in 1..=last {
        if insert(&mut bag, values, key, refusals)?.is_none() {
            has_first(
                &bag,
                values,
                key.saturating_sub(1),
                "full bags: while they are filled",
            )?;
            return Ok(None);
        }
    }
    Ok(Some(bag))
}

fn remove<'a>(bag: &mut Bag<'a>, values: &'a Values, key: u64) -> usize {
    bag.remove(&values.value(key))
}

// Checks that the bag has these tables.
fn has_tables<'a>(
    bag: &Bag<'a>,
    tables: (usize, usize, usize),
    wrong: &'static str,
) -> Result<(), Wrong> {
    check(tables_of(bag) == tables, wrong)
}

// Inserts a value, which must not fail, and checks the count before.
fn goes_in<'a>(
    bag: &mut Bag<'a>,
    values: &'a Values,
    key: u64,
    before: usize,
    refusals: &mut Refusals,
    wrong: &'static str,
) -> Result<(), Wrong> {
    let answer = insert(bag, values, key, refusals)?;
    check(answer == Some(before), wrong)
}

// The thirteenth value finds no room in 16 slots. If it fails the others stay, are counted up and down, and it is inserted with
// memory again.
fn thirteenth(alloc: Global, values: &Values, refusals: &mut Refusals) -> Result<(), Wrong> {
    match filled(alloc, values, 12, refusals)? {
        Some(mut bag) => thirteenth_into(&mut bag, values, refusals),
        None => Ok(()),
    }
}

fn thirteenth_into<'a>(
    bag: &mut Bag<'a>,
    values: &'a Values,
    refusals: &mut Refusals,
) -> Result<(), Wrong> {
    has_tables(bag, (16, 0, 0), "12 values: the slots")?;
    if insert(bag, values, 13, refusals)?.is_none() {
        thirteenth_refused(bag, values, refusals)?;
    }
    has_tables(bag, (32, 0, 11), "13 values: the slots")?;
    has_first(bag, values, 13, "13 values")
}

fn thirteenth_refused<'a>(
    bag: &mut Bag<'a>,
    values: &'a Values,
    refusals: &mut Refusals,
) -> Result<(), Wrong> {
    has_tables(bag, (16, 0, 0), "the thirteenth: the slots")?;
    has_first(bag, values, 12, "the thirteenth: those before it")?;
    goes_in(
        bag,
        values,
        5,
        1,
        refusals,
        "the thirteenth: one more of another",
    )?;
    let removed = remove(bag, values, 5);
    check(removed == 2, "the thirteenth: one fewer of another")?;
    goes_in(
        bag,
        values,
        13,
        0,
        refusals,
        "the thirteenth: with memory again",
    )
}

// In the middle of a carry values are inserted without a request for memory, until there is no room.
fn in_a_carry(alloc: Global, values: &Values, refusals: &mut Refusals) -> Result<(), Wrong> {
    match filled(alloc, values, 25, refusals)? {
        Some(mut bag) => carried_on(&mut bag, values, refusals),
        None => Ok(()),
    }
}

fn carried_on<'a>(
    bag: &mut Bag<'a>,
    values: &'a Values,
    refusals: &mut Refusals,
) -> Result<(), Wrong> {
    has_tables(bag, (64, 16, 23), "25 values: the slots")?;
    for key in 26..=48 {
        goes_in(
            bag,
            values,
            key,
            0,
            refusals,
            "a carry: a value for which there is room",
        )?;
        check(bag.waiting() == 0, "a carry: the slots that wait")?;
    }
    has_tables(bag, (64, 0, 0), "48 values: the slots")?;
    if insert(bag, values, 49, refusals)?.is_none() {
        has_tables(bag, (64, 0, 0), "the 49th: the slots")?;
        return has_first(bag, values, 48, "the 49th: those before it");
    }
    has_tables(bag, (128, 48, 47), "49 values: the slots")?;
    has_first(bag, values, 49, "49 values")
}

/// What a bag has after a call that may insert 13: the counts of 9 and 13, and the total.
pub type After = (usize, usize, usize);

// Calls that make an allocation on a bag with no room, with what it has if they fail and if they are done.
const CALLS: [(&str, After, After); 8] = [
    ("insert_many", (1, 0, 12), (1, 2, 14)),
    ("replace", (1, 0, 12), (1, 1, 13)),
    ("or_insert_many", (1, 0, 12), (1, 3, 15)),
    ("extend", (2, 0, 13), (3, 1, 16)),
    ("extend_many", (3, 0, 14), (3, 4, 18)),
    ("extend_refs", (2, 0, 13), (3, 1, 16)),
    ("extend_refs_many", (3, 0, 14), (5, 2, 20)),
    ("reserve", (1, 0, 12), (1, 0, 12)),
];

// Whether a call was done, and not what it returns.
fn done(answer: Result<usize, BagError>) -> Result<(), BagError> {
    match answer {
        Ok(_) => Ok(()),
        Err(error) => Err(error),
    }
}

// Inserts at an entry of a bag of any values.
fn or_insert_many<T: Eq + Hash + Drop>(
    bag: &mut HashBag<T, OneState>,
    value: T,
    n: usize,
) -> Result<usize, BagError> {
    bag.entry(value).or_insert_many(n)
}

// The values of an extend.
fn four<'a>(values: &'a Values) -> [Counted<'a>; 4] {
    [
        values.value(9),
        values.value(13),
        values.value(9),
        values.value(14),
    ]
}

fn by_pair<'a>(bag: &mut Bag<'a>, values: &'a Values) -> Result<(), BagError> {
    bag.extend_many([(values.value(9), 2), (values.value(13), 4)].into_iter())
}

fn by_each<'a>(bag: &mut Bag<'a>, items: &[Counted<'a>]) -> Result<(), BagError> {
    bag.extend_refs(items.iter())
}

fn by_two_of_each<'a>(bag: &mut Bag<'a>, items: &[Counted<'a>]) -> Result<(), BagError> {
    bag.extend_refs_many(items.iter().map(|item| (item, 2)))
}

// Makes a call. Each makes the values that it needs, so that no other one has to drop them.
fn made<'a>(bag: &mut Bag<'a>, values: &'a Values, call: &str) -> Result<(), BagError> {
    match call {
        "insert_many" => done(bag.insert_many(values.value(13), 2)),
        "replace" => done(bag.replace(values.value(13))),
        "or_insert_many" => done(or_insert_many(bag, values.value(13), 3)),
        "extend" => bag.extend(four(values).into_iter()),
        "extend_many" => by_pair(bag, values),
        "extend_refs" => by_each(bag, &four(values)),
        "extend_refs_many" => by_two_of_each(bag, &four(values)),
        _ => bag.reserve(40),
    }
}

/// The counts of 9 and 13, and the total.
pub fn state_of<'a>(bag: &Bag<'a>, values: &'a Values) -> After {
    (count(bag, values, 9), count(bag, values, 13), bag.len())
}

// A call on a bag with no room. If it fails no slot changes, and 13 is inserted with memory again.
fn without_room(
    alloc: Global,
    values: &Values,
    call: (&str, After, After),
    refusals: &mut Refusals,
) -> Result<(), Wrong> {
    match filled(alloc, values, 12, refusals)? {
        Some(mut bag) => made_without_room(&mut bag, values, call, refusals),
        None => Ok(()),
    }
}

fn made_without_room<'a>(
    bag: &mut Bag<'a>,
    values: &'a Values,
    call: (&str, After, After),
    refusals: &mut Refusals,
) -> Result<(), Wrong> {
    let (name, refused, done) = call;
    if refusals.is_done(made(bag, values, name))? {
        return check(state_of(bag, values) == done, "a call without room: done");
    }
    check(
        (state_of(bag, values), tables_of(bag), bag.set_len()) == (refused, (16, 0, 0), 12),
        "a call without room: refused",
    )?;
    goes_in(
        bag,
        values,
        13,
        0,
        refusals,
        "a call without room: with memory again",
    )
}

// An entry on a bag of numbers with no room. If it fails no slot changes.
fn entry_without_room(alloc: Global, refusals: &mut Refusals) -> Result<(), Wrong> {
    let mut bag: HashBag<u64, OneState> = HashBag::with_hasher(alloc, OneState);
    set_without_room(&mut bag, refusals)
}

fn set_without_room(
    bag: &mut HashBag<u64, OneState>,
    refusals: &mut Refusals,
) -> Result<(), Wrong> {
    for value in 1..=12 {
        if refusals.answer(bag.insert(value))?.is_none() {
            return Ok(());
        }
    }
    let answer = refusals.answer(bag.entry(13).or_insert_many(3))?;
    let wanted = if answer == Some(3) {
        ((32, 0, 11), 3, 15)
    } else {
        ((16, 0, 0), 0, 12)
    };
    check(
        (tables_of(bag), bag.contains(&13), bag.len()) == wanted,
        "an entry without room",
    )
}

// A bag of 9, 13, 9 and 14.
fn of_four<'a>(alloc: Global, values: &'a Values) -> Result<Bag<'a>, BagError> {
    HashBag::from_iter(alloc, four(values).into_iter())
}

// A bag of 9 twice, and of 13 three times.
fn of_pairs<'a>(alloc: Global, values: &'a Values) -> Result<Bag<'a>, BagError> {
    let pairs = [(values.value(9), 2), (values.value(13), 3)];
    HashBag::from_counts(alloc, pairs.into_iter())
}

// There is this bag, or none.
fn is_made<'a>(
    made: Result<Bag<'a>, BagError>,
    values: &'a Values,
    wanted: After,
    refusals: &mut Refusals,
) -> Result<(), Wrong> {
    match refusals.answer(made)? {
        Some(bag) => check(state_of(&bag, values) == wanted, "a collection"),
        None => Ok(()),
    }
}

// Both collections.
fn collected(alloc: Global, values: &Values, refusals: &mut Refusals) -> Result<(), Wrong> {
    is_made(of_four(alloc, values), values, (2, 1, 4), refusals)?;
    is_made(of_pairs(alloc, values), values, (2, 3, 5), refusals)
}

fn reserve<'a>(bag: &mut Bag<'a>, n: usize, refusals: &mut Refusals) -> Result<bool, Wrong> {
    refusals.is_done(bag.reserve(n))
}

fn shrink<'a>(bag: &mut Bag<'a>, refusals: &mut Refusals) -> Result<bool, Wrong> {
    refusals.is_done(bag.shrink_to_fit())
}

// Room is made and given back in the middle of a carry: all values move, or none.
fn moved_in_a_carry(alloc: Global, values: &Values, refusals: &mut Refusals) -> Result<(), Wrong> {
    match filled(alloc, values, 25, refusals)? {
        Some(mut bag) => all_moved(&mut bag, values, refusals),
        None => Ok(()),
    }
}

fn all_moved<'a>(
    bag: &mut Bag<'a>,
    values: &'a Values,
    refusals: &mut Refusals,
) -> Result<(), Wrong> {
    let done = reserve(bag, 100, refusals)?;
    let wanted = if done { (256, 0, 167) } else { (64, 16, 23) };
    has_tables(bag, wanted, "a carry: after reserve")?;
    has_first(bag, values, 25, "a carry: the values after reserve")?;
    let fits = shrink(bag, refusals)?;
    let wanted = if done && fits { (64, 0, 23) } else { wanted };
    has_tables(bag, wanted, "a carry: after shrink_to_fit")?;
    has_first(bag, values, 25, "a carry: the values after shrink_to_fit")
}

// With two values fewer there is room in half of the slots: all values move there, or none.
fn shrunk_in_a_carry(alloc: Global, values: &Values, refusals: &mut Refusals) -> Result<(), Wrong> {
    match filled(alloc, values, 25, refusals)? {
        Some(mut bag) => all_shrunk(&mut bag, values, refusals),
        None => Ok(()),
    }
}

fn all_shrunk<'a>(
    bag: &mut Bag<'a>,
    values: &'a Values,
    refusals: &mut Refusals,
) -> Result<(), Wrong> {
    for key in [24, 25] {
        remove(bag, values, key);
    }
    has_tables(bag, (64, 16, 24), "a carry: 23 values")?;
    let done = shrink(bag, refusals)?;
    let wanted = if done { (32, 0, 1) } else { (64, 16, 24) };
    has_tables(bag, wanted, "a carry: 23 values, shrunk")?;
    has_first(bag, values, 23, "a carry: the 23 values, shrunk")
}

// The values from 1 to 25 are cloned in the middle of a carry: the source stays as it is.
fn cloned_in_a_carry(alloc: Global, values: &Values, refusals: &mut Refusals) -> Result<(), Wrong> {
    let Some(bag) = filled(alloc, values, 25, refusals)? else {
        return Ok(());
    };
    cloned(&bag, refusals)?;
    has_tables(&bag, (64, 16, 23), "a carry: after a clone")?;
    has_first(&bag, values, 25, "a carry: the values after a clone")
}

// Checks that the clone is equal, and has no slots that wait; or there is none.
fn cloned<'a>(bag: &Bag<'a>, refusals: &mut Refusals) -> Result<(), Wrong> {
    match refusals.answer(bag.clone())? {
        Some(clone) => check(
            (clone == *bag, tables_of(&clone)) == (true, (64, 0, 23)),
            "a carry: a clone",
        ),
        None => Ok(()),
    }
}

// What is tried with values that are counted.
const TRIED: [&str; 8] = [
    "the 13th value",
    "a carry",
    "room in a carry",
    "a run",
    "runs",
    "collections",
    "less room in a carry",
    "a clone in a carry",
];

fn tried(alloc: Global, values: &Values, what: &str, refusals: &mut Refusals) -> Result<(), Wrong> {
    match what {
        "the 13th value" => thirteenth(alloc, values, refusals),
        "a carry" => in_a_carry(alloc, values, refusals),
        "room in a carry" => moved_in_a_carry(alloc, values, refusals),
        "a run" => run_without_room(alloc, values, refusals),
        "runs" => runs_without_room(alloc, values, refusals),
        "collections" => collected(alloc, values, refusals),
        "less room in a carry" => shrunk_in_a_carry(alloc, values, refusals),
        "a clone in a carry" => cloned_in_a_carry(alloc, values, refusals),
        _ => Err(Wrong("a name in TRIED")),
    }
}

/// All of these. After each of them every value that was made is dropped, and was dropped once.
pub fn full_bags(alloc: Global, refusals: &mut Refusals) -> Result<(), Wrong> {
    let values = Values::new();
    for what in &TRIED {
        tried(alloc, &values, *what, refusals)?;
        values.are_gone()?;
    }
    for call in &CALLS {
        without_room(alloc, &values, *call, refusals)?;
        values.are_gone()?;
    }
    entry_without_room(alloc, refusals)
}
