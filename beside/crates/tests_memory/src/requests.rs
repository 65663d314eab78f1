//! Calls by themselves. The script `tests/crates/refused_memory.sh` knows how many requests for memory each makes, with those that make its bag.
use crate::checks::{Refusals, Wrong, check};
use crate::limits::limits;
use hashbag::{BagError, HashBag};
use hashbag_ops::{
    contains_all, is_disjoint, keep_common, keep_most, max_count, merge, merge_ref, most_common,
    sorted, take_away,
};
use std::alloc::Global;

// Values that are lent.
const NUMBERS: [u64; 13] = [0, 1, 2, 3, 4, 5, 6, 7, 8, 9, 10, 11, 12];

/// A call, and how many values its bag has, or is given.
#[derive(Clone, Copy)]
pub struct Single {
    verb: Verb,
    size: u64,
}

#[derive(Clone, Copy)]
enum Verb {
    // Nothing more than the values, inserted one after another.
    Insert,
    // All calls that don't allocate.
    Quiet,
    // Calls on the limit, and those that fail by it.
    Limits,
    // A bag is emptied, or used up.
    Clear,
    IntoIter,
    // An absent value, by other calls than `insert`.
    Replace,
    OrInsert,
    // Joins with a bag of three values, and whether the two are equal.
    Joins,
    // Sums with a bag of three values, of which two are there; of an empty bag, with one of one value.
    Merge,
    MergeRef,
    KeepMost,
    // A sum of a bag at its limit with one of three values, which fails by the limit.
    FullMergeRef,
    // Calls on two bags that don't allocate.
    Parts,
    // Lists of all pairs, and of the three most common values.
    Sorted,
    MostCommon,
    Clone,
    // Room that there is already, and room that there isn't.
    Within,
    Reserve,
    // With no more room than the values need, and with more.
    Shrink,
    RoomyShrink,
    WithCapacity,
    Extend,
    ExtendMany,
    ExtendRefs,
    ExtendRefsMany,
    FromIter,
    FromCounts,
}

impl Single {
    /// Returns the call that is written as `clone-25`.
    pub fn of(word: &str) -> Option<Single> {
        let (verb, size) = word.split_once('-')?;
        let verb = match verb {
            "insert" => Verb::Insert,
            "quiet" => Verb::Quiet,
            "limits" => Verb::Limits,
            "clear" => Verb::Clear,
            "into_iter" => Verb::IntoIter,
            "replace" => Verb::Replace,
            "or_insert" => Verb::OrInsert,
            "joins" => Verb::Joins,
            "merge" => Verb::Merge,
            "merge_ref" => Verb::MergeRef,
            "keep_most" => Verb::KeepMost,
            "full_merge_ref" => Verb::FullMergeRef,
            "parts" => Verb::Parts,
            "sorted" => Verb::Sorted,
            "most_common" => Verb::MostCommon,
            "clone" => Verb::Clone,
            "within" => Verb::Within,
            "reserve" => Verb::Reserve,
            "shrink" => Verb::Shrink,
            "roomy_shrink" => Verb::RoomyShrink,
            "with_capacity" => Verb::WithCapacity,
            "extend" => Verb::Extend,
            "extend_many" => Verb::ExtendMany,
            "extend_refs" => Verb::ExtendRefs,
            "extend_refs_many" => Verb::ExtendRefsMany,
            "from_iter" => Verb::FromIter,
            "from_counts" => Verb::FromCounts,
            _ => return None,
        };
        Some(Single {
            verb,
            size: size.parse().ok()?,
        })
    }

    /// Makes the call. If one fails, no other one is made.
    pub fn make(self, alloc: Global, refusals: &mut Refusals) -> Result<(), Wrong> {
        match self.verb {
            Verb::WithCapacity => made(HashBag::with_capacity(alloc, self.size as usize), refusals),
            Verb::FromIter => made(HashBag::from_iter(alloc, 0..self.size), refusals),
            Verb::FromCounts => {
                let counts = (0..self.size).map(|value| (value, 2));
                made(HashBag::from_counts(alloc, counts), refusals)
            }
            Verb::Extend | Verb::ExtendMany | Verb::ExtendRefs | Verb::ExtendRefsMany => {
                let mut bag = HashBag::new(alloc);
                done(extended(&mut bag, self), refusals)
            }
            _ => match inserted(alloc, self.size, refusals)? {
                Some(bag) => make_on(alloc, bag, self.verb, refusals),
                None => Ok(()),
            },
        }
    }
}

fn made(answer: Result<HashBag<u64>, BagError>, refusals: &mut Refusals) -> Result<(), Wrong> {
    drop(refusals.answer(answer)?);
    Ok(())
}

/// Extends a bag by the numbers below a size, or by those that are lent.
pub fn extended(bag: &mut HashBag<u64>, single: Single) -> Result<(), BagError> {
    match single.verb {
        Verb::Extend => bag.extend(0..single.size),
        Verb::ExtendMany => bag.extend_many((0..single.size).map(|value| (value, 2))),
        Verb::ExtendRefs => bag.extend_refs(NUMBERS.iter()),
        _ => bag.extend_refs_many(NUMBERS.iter().map(|value| (value, 2))),
    }
}

// The numbers below `size`, inserted one after another. `None` if one failed.
fn inserted(
    alloc: Global,
    size: u64,
    refusals: &mut Refusals,
) -> Result<Option<HashBag<u64>>, Wrong> {
    inserted_from(alloc, 0, size, refusals)
}

// The numbers from `first` on that are below `size`.
fn inserted_from(
    alloc: Global,
    first: u64,
    size: u64,
    refusals: &mut Refusals,
) -> Result<Option<HashBag<u64>>, Wrong> {
    let mut bag = HashBag::new(alloc);
    for value in first..size {
        if refusals.answer(bag.insert(value))?.is_none() {
            return Ok(None);
        }
    }
    Ok(Some(bag))
}

// Makes a call on a bag.
fn make_on(
    alloc: Global,
    bag: HashBag<u64>,
    verb: Verb,
    refusals: &mut Refusals,
) -> Result<(), Wrong> {
    let mut bag = bag;
    match verb {
        Verb::IntoIter => used_up(bag),
        Verb::Joins | Verb::Parts | Verb::FullMergeRef => {
            with_three(alloc, &mut bag, verb, refusals)
        }
        Verb::Merge | Verb::MergeRef | Verb::KeepMost => {
            with_sum(alloc, &mut bag, verb, refusals)
        }
        Verb::Sorted | Verb::MostCommon => with_list(alloc, &bag, verb, refusals),
        Verb::Within | Verb::Reserve | Verb::Shrink | Verb::RoomyShrink => {
            with_room(&mut bag, verb, refusals)
        }
        _ => with_one(alloc, &mut bag, verb, refusals),
    }
}

// Makes a call that takes no other bag.
fn with_one(
    alloc: Global,
    bag: &mut HashBag<u64>,
    verb: Verb,
    refusals: &mut Refusals,
) -> Result<(), Wrong> {
    match verb {
        Verb::Quiet => quiet(bag, refusals),
        Verb::Limits => limits(alloc, bag),
        Verb::Clear => cleared(bag),
        Verb::Replace => brought(bag.replace(1000), refusals),
        Verb::OrInsert => brought(bag.entry(1000).or_insert(), refusals),
        Verb::Clone => made(bag.clone(), refusals),
        _ => Ok(()),
    }
}

// Makes a call with a bag of three values.
fn with_three(
    alloc: Global,
    bag: &mut HashBag<u64>,
    verb: Verb,
    refusals: &mut Refusals,
) -> Result<(), Wrong> {
    match inserted(alloc, 3, refusals)? {
        Some(other) => match verb {
            Verb::Joins => joined(bag, &other),
            Verb::FullMergeRef => past_the_limit(bag, &other),
            _ => parts(bag, &other),
        },
        None => Ok(()),
    }
}

// Makes a sum with a bag that has the greatest two values of this one, and the next.
fn with_sum(
    alloc: Global,
    bag: &mut HashBag<u64>,
    verb: Verb,
    refusals: &mut Refusals,
) -> Result<(), Wrong> {
    let size = bag.len() as u64;
    let (from, to) = (size.saturating_sub(2), size.saturating_add(1));
    match inserted_from(alloc, from, to, refusals)? {
        Some(other) => summed(bag, other, verb, refusals),
        None => Ok(()),
    }
}

// Makes a list of the values.
fn with_list(
    alloc: Global,
    bag: &HashBag<u64>,
    verb: Verb,
    refusals: &mut Refusals,
) -> Result<(), Wrong> {
    match verb {
        Verb::Sorted => listed(sorted(alloc, bag), bag.set_len(), refusals),
        _ => listed(most_common(alloc, bag, 3), 3, refusals),
    }
}

// Makes room, or gives it back.
fn with_room(bag: &mut HashBag<u64>, verb: Verb, refusals: &mut Refusals) -> Result<(), Wrong> {
    match verb {
        Verb::Within => done(bag.reserve(bag.room()), refusals),
        Verb::Reserve => done(bag.reserve(1000), refusals),
        Verb::Shrink => done(bag.shrink_to_fit(), refusals),
        _ => roomy_shrink(bag, refusals),
    }
}

// Makes room, and gives it back if there was memory for it.
fn roomy_shrink(bag: &mut HashBag<u64>, refusals: &mut Refusals) -> Result<(), Wrong> {
    if !refusals.is_done(bag.reserve(1000))? {
        return Ok(());
    }
    done(bag.shrink_to_fit(), refusals)
}

// A sum of a bag with another, of whose values one is absent. If it fails, the bag is as it was.
fn summed(
    bag: &mut HashBag<u64>,
    other: HashBag<u64>,
    verb: Verb,
    refusals: &mut Refusals,
) -> Result<(), Wrong> {
    let (len, before) = (bag.len(), tables(bag));
    let added = match verb {
        Verb::KeepMost => 1,
        _ => other.len(),
    };
    let sum = match verb {
        Verb::Merge => merge(bag, other),
        Verb::MergeRef => merge_ref(bag, &other),
        _ => keep_most(bag, other),
    };
    let refused = sum.is_err();
    done(sum, refusals)?;
    if refused {
        check(bag.len() == len, "the total after a refused sum")?;
        return check(tables(bag) == before, "the tables after a refused sum");
    }
    check(bag.len() == len.saturating_add(added), "the total of a sum")
}

// The slots, those that wait, and the room.
fn tables(bag: &HashBag<u64>) -> (usize, usize, usize) {
    (bag.slots(), bag.waiting(), bag.room())
}

// On a bag that has the three values of the other one once each.
fn parts(bag: &mut HashBag<u64>, other: &HashBag<u64>) -> Result<(), Wrong> {
    let len = bag.len();
    check(contains_all(bag, other), "contains_all")?;
    check(!is_disjoint(bag, other), "is_disjoint")?;
    check(max_count(bag) == 1, "max_count")?;
    take_away(bag, other);
    check(bag.len() == len.saturating_sub(3), "take_away")?;
    check(is_disjoint(bag, other), "is_disjoint of what is left")?;
    keep_common(bag, other);
    check(bag.is_empty(), "keep_common")
}

// A sum with a bag at its limit fails before anything is cloned.
fn past_the_limit(bag: &mut HashBag<u64>, other: &HashBag<u64>) -> Result<(), Wrong> {
    let len = bag.len();
    check(bag.set_limit(len) == Ok(()), "set_limit before merge_ref")?;
    let sum = merge_ref(bag, other);
    check(sum == Err(BagError::TooMany), "merge_ref past the limit")?;
    check(bag.len() == len, "the total after merge_ref past the limit")
}

// A list of pairs, as long as the number says.
fn listed(
    answer: Result<Vec<(&u64, usize)>, BagError>,
    len: usize,
    refusals: &mut Refusals,
) -> Result<(), Wrong> {
    match refusals.answer(answer)? {
        Some(pairs) => check(pairs.len() == len, "the length of a list"),
        None => Ok(()),
    }
}

fn done(answer: Result<(), BagError>, refusals: &mut Refusals) -> Result<(), Wrong> {
    drop(refusals.is_done(answer)?);
    Ok(())
}

// A call that inserted an absent value.
fn brought(answer: Result<usize, BagError>, refusals: &mut Refusals) -> Result<(), Wrong> {
    drop(refusals.answer(answer)?);
    Ok(())
}

// The slots of a bag that is emptied stay.
fn cleared(bag: &mut HashBag<u64>) -> Result<(), Wrong> {
    let slots = bag.slots();
    bag.clear();
    check((bag.len(), bag.slots()) == (0, slots), "clear")
}

fn used_up(bag: HashBag<u64>) -> Result<(), Wrong> {
    let values = bag.set_len();
    check(bag.into_iter().count() == values, "into_iter")
}

// Walks over the joins of two bags, of which the second has three values of the first.
fn joined(bag: &HashBag<u64>, other: &HashBag<u64>) -> Result<(), Wrong> {
    let all = bag.set_len();
    let more = all.saturating_sub(3);
    check(number_joined(bag, other) == all, "outer_join")?;
    check(number_more(bag, other) == more, "difference")?;
    check(number_signed(bag, other) == all, "signed_difference")?;
    check(number_not_in(bag, other) == more, "not_in")?;
    check(*bag != *other, "equality")
}

fn number_joined(bag: &HashBag<u64>, other: &HashBag<u64>) -> usize {
    let mut number = 0usize;
    for _ in bag.outer_join(other) {
        number = number.saturating_add(1);
    }
    number
}

fn number_more(bag: &HashBag<u64>, other: &HashBag<u64>) -> usize {
    let mut number = 0usize;
    for _ in bag.difference(other) {
        number = number.saturating_add(1);
    }
    number
}

fn number_signed(bag: &HashBag<u64>, other: &HashBag<u64>) -> usize {
    let mut number = 0usize;
    for _ in bag.signed_difference(other) {
        number = number.saturating_add(1);
    }
    number
}

fn number_not_in(bag: &HashBag<u64>, other: &HashBag<u64>) -> usize {
    let mut number = 0usize;
    for _ in bag.not_in(other) {
        number = number.saturating_add(1);
    }
    number
}

// Calls that don't allocate, on the numbers below 25 in the middle of a carry.
fn quiet(bag: &mut HashBag<u64>, refusals: &mut Refusals) -> Result<(), Wrong> {
    for value in [1, 20] {
        quiet_on(bag, value, refusals)?;
    }
    check(bag.iter().count() == bag.len(), "iter")?;
    check(bag.set_iter().count() == bag.set_len(), "set_iter")?;
    check(bag.set_iter().clone().is_ok(), "a clone of a walk")?;
    check(
        bag.capacity() == bag.set_len().saturating_add(bag.room()),
        "capacity",
    )?;
    bag.retain(|_value: &u64, _count: usize| 1);
    check(bag.len() == 23, "retain")?;
    check(bag.drain().count() == 23, "drain")?;
    bag.clear();
    check(bag.is_empty(), "clear")
}

// On a value that occurs once, and is absent after them.
fn quiet_on(bag: &mut HashBag<u64>, value: u64, refusals: &mut Refusals) -> Result<(), Wrong> {
    check(bag.contains(&value) == 1, "contains")?;
    check(bag.get(&value).is_some(), "get")?;
    quiet_insertions(bag, value, refusals)?;
    quiet_entries(bag, value, refusals)?;
    check(bag.take_one(&value) == Err(4), "take_one")?;
    check(bag.try_take(&value).is_err(), "try_take")?;
    quiet_removals(bag, value)
}

// Insertions of a value that occurs once.
fn quiet_insertions(
    bag: &mut HashBag<u64>,
    value: u64,
    refusals: &mut Refusals,
) -> Result<(), Wrong> {
    let answer = refusals.answer(bag.insert_many(value, 5))?;
    check(answer == Some(1), "insert_many")?;
    let answer = refusals.answer(bag.insert_many(99, 0))?;
    check(answer == Some(0), "insert_many of 0")?;
    let answer = refusals.answer(bag.replace(value))?;
    check(answer == Some(6), "replace")
}

// Entries of a value that occurs once.
fn quiet_entries(bag: &mut HashBag<u64>, value: u64, refusals: &mut Refusals) -> Result<(), Wrong> {
    let answer = refusals.answer(bag.entry(value).or_insert())?;
    check(answer == Some(1), "or_insert")?;
    let answer = refusals.answer(bag.entry(99).or_insert_many(0))?;
    check(answer == Some(0), "or_insert_many of 0")?;
    let changed = bag
        .entry(value)
        .and_modify(|count: &mut usize| *count = 4)
        .is_ok();
    check(changed, "and_modify")
}

// Removals of a value that occurs twice.
fn quiet_removals(bag: &mut HashBag<u64>, value: u64) -> Result<(), Wrong> {
    check(bag.remove(&value) == 2, "remove")?;
    check(bag.remove_up_to(&value, 0) == 1, "remove_up_to")?;
    check(bag.take_all(&value).is_some(), "take_all")?;
    check(bag.remove(&value) == 0, "remove of an absent value")
}
