//! Walks over the bag, with the items found by hand, and the texts of `Debug`.
use hashbag::{Drain, FixedState, HashBag, IntoIter, Iter, SetIter};
use hashbag_callers::uses::{
    first_moved_out, moved_out, number_by_loop, number_of_items, sum_by_loop, sum_of_counts,
    sum_used_up,
};
use std::alloc::{AllocError, Global};
use std::fmt::Debug;
use std::hash::{BuildHasher, Hash};
use std::process::Abort;
use std::test::Fail;
use tests_kit::calls::{bag_of, bag_of_counts, counts_of, make_call, make_calls};
use tests_kit::texts::{debug_of, is_text_of};
use tests_kit::{IdentityState, OneState, ParityState};

// Occurrences of `sample_bag`.
const ITEMS: usize = 6;

// Distinct values of `sample_bag`.
const VALUES: usize = 3;

/// Checks how many items a walk has left.
pub fn has_left<I: ExactSizeIterator>(rt: &impl Abort, walk: &I, left: usize) {
    let got = (walk.len(), walk.size_hint());
    assert_eq!(rt; got, (left, (left, Some(left))));
}

// Checks that a bag has nothing.
fn is_empty<T: Eq + Hash + Drop, S: BuildHasher + Drop>(rt: &impl Abort, bag: &HashBag<T, S>) {
    let got = (bag.is_empty(), bag.len(), bag.set_len());
    assert_eq!(rt; got, (true, 0, 0));
}

// 5 three times, 6 twice and 7 once.
fn sample_bag<S: BuildHasher + Drop>(alloc: Global, state: S) -> Result<HashBag<u64, S>, Fail> {
    bag_of(alloc, state, &[5, 6, 5, 7, 6, 5])
}

/// The names, each in a text of its own, collected.
pub fn bag_of_names<S: BuildHasher + Default + Drop>(
    alloc: Global,
    names: &[&str],
) -> Result<HashBag<String, S>, Fail> {
    let mut texts = Vec::new(alloc);
    for name in names {
        texts.push(String::from_str(alloc, name)?)?;
    }
    Ok(HashBag::from_iter(alloc, texts.into_iter())?)
}

// How often a walk gives Einar.
fn number_of_einars<S: BuildHasher + Drop>(bag: &HashBag<String, S>) -> usize {
    let mut einars = 0usize;
    for name in bag.iter() {
        if name.as_str() == "Einar" {
            einars = einars.saturating_add(1);
        }
    }
    einars
}

fn names_one_by_one<S: BuildHasher + Drop>(rt: &impl Abort, bag: &HashBag<String, S>) {
    has_left(rt, &bag.iter(), 3);
    assert_eq!(rt; number_of_einars(bag), 2);
}

fn all_names<S: BuildHasher + Drop>(rt: &impl Abort, bag: &HashBag<String, S>) {
    let got = (bag.iter().count(), bag.set_iter().count());
    assert_eq!(rt; got, (3, 2));
}

fn is_count_of(rt: &impl Abort, name: &str, count: usize) {
    let want = if name == "Einar" { 2 } else { 1 };
    assert_eq!(rt; count, want, "of {name}");
}

fn names_with_counts<S: BuildHasher + Drop>(rt: &impl Abort, bag: &HashBag<String, S>) {
    has_left(rt, &bag.set_iter(), 2);
    for (name, count) in bag.set_iter() {
        is_count_of(rt, name.as_str(), count);
    }
}

fn one_name_taken_out<S: BuildHasher + Drop>(rt: &impl Abort, bag: &mut HashBag<String, S>) {
    let mut drain = bag.drain();
    has_left(rt, &drain, 2);
    assert!(rt; drain.next().is_some());
    has_left(rt, &drain, 1);
}

fn walks_over_names<S: BuildHasher + Default + Drop>(
    rt: &impl Abort,
    alloc: Global,
) -> Result<(), Fail> {
    let mut bag: HashBag<String, S> = bag_of_names(alloc, &["Einar", "Einar", "Harald"])?;
    names_one_by_one(rt, &bag);
    all_names(rt, &bag);
    names_with_counts(rt, &bag);
    one_name_taken_out(rt, &mut bag);
    is_empty(rt, &bag);
    Ok(())
}

// What the calls of the sample bag return after a walk that borrowed it.
fn is_sample<S: BuildHasher + Drop>(
    rt: &impl Abort,
    alloc: Global,
    bag: &HashBag<u64, S>,
) -> Result<(), Fail> {
    assert_eq!(rt; bag.len(), ITEMS);
    let counts = counts_of(alloc, bag, &[5, 6, 7])?;
    is_text_of("counts of 5, 6 and 7", counts.as_str(), "[3, 2, 1]")?;
    Ok(())
}

fn walk_of<S: BuildHasher + Drop>(bag: &HashBag<u64, S>) -> Iter<'_, u64> {
    bag.iter()
}

fn set_walk_of<S: BuildHasher + Drop>(bag: &HashBag<u64, S>) -> SetIter<'_, u64> {
    bag.set_iter()
}

fn drain_of<S: BuildHasher + Drop>(bag: &mut HashBag<u64, S>) -> Drain<'_, u64> {
    bag.drain()
}

fn owned_walk_of<S: BuildHasher + Drop>(bag: HashBag<u64, S>) -> IntoIter<u64> {
    bag.into_iter()
}

/// The next item of a walk. A loop that calls this counts by itself and not by the walk.
pub fn next_of<I: Iterator>(walk: &mut I) -> Option<I::Item>
where
    requires any { (state : _) → I.can_next state }
{
    walk.next()
}

// Takes items of a walk, which has to have them.
fn take_items<I: Iterator>(rt: &impl Abort, name: &str, walk: &mut I, taken: usize)
where
    I::Item: Drop,
    requires any { (state : _) → I.can_next state }
{
    for _ in 0..taken {
        assert!(rt; next_of(walk).is_some(), "before {taken} of {name}");
    }
}

// Takes some of the items that a walk has, and drops the walk.
fn some_taken<I: ExactSizeIterator + Drop>(
    rt: &impl Abort,
    name: &str,
    walk: I,
    items: usize,
    taken: usize,
)
where
    I::Item: Drop,
    requires any { (state : _) → I.can_next state }
{
    let mut walk = walk;
    take_items(rt, name, &mut walk, taken);
    has_left(rt, &walk, items.saturating_sub(taken));
}

// Checks that each walk that borrows the bag, dropped after each number of its items, leaves it as before.
fn borrowed_walks_dropped<S: BuildHasher + Drop>(
    rt: &impl Abort,
    alloc: Global,
    bag: &HashBag<u64, S>,
) -> Result<(), Fail> {
    for taken in 0..=ITEMS {
        some_taken(rt, "iter", walk_of(bag), ITEMS, taken);
        is_sample(rt, alloc, bag)?;
    }
    for taken in 0..=VALUES {
        some_taken(rt, "set_iter", set_walk_of(bag), VALUES, taken);
        is_sample(rt, alloc, bag)?;
    }
    Ok(())
}

const DRAINED_ROWS: &str = "
    contains 5 = 0
    insert 5 = 0
    contains 5 = 1";

// A drain that is dropped leaves an empty bag, which takes values in again.
fn drained_and_filled<S: BuildHasher + Default + Drop>(
    rt: &impl Abort,
    alloc: Global,
    mut bag: HashBag<u64, S>,
    taken: usize,
) -> Result<(), Fail> {
    some_taken(rt, "drain", drain_of(&mut bag), VALUES, taken);
    is_empty(rt, &bag);
    make_calls(alloc, &mut bag, DRAINED_ROWS)
}

fn owned_walks_dropped<S: BuildHasher + Default + Copy>(
    rt: &impl Abort,
    alloc: Global,
    state: S,
) -> Result<(), Fail> {
    for taken in 0..=VALUES {
        drained_and_filled(rt, alloc, sample_bag(alloc, state)?, taken)?;
        let walk = owned_walk_of(sample_bag(alloc, state)?);
        some_taken(rt, "into_iter", walk, VALUES, taken);
    }
    Ok(())
}

// After the last item there is none for good.
fn ends_after<I: Iterator + Drop>(rt: &impl Abort, name: &str, walk: I, items: usize)
where
    I::Item: Drop,
    requires any { (state : _) → I.can_next state }
{
    let mut walk = walk;
    take_items(rt, name, &mut walk, items);
    for _ in 0..3 {
        assert!(rt; next_of(&mut walk).is_none(), "after {items} of {name}");
    }
}

// The occurrences of one value follow one another: the value changes twice over three values.
fn changes_of_value<S: BuildHasher + Drop>(bag: &HashBag<u64, S>) -> usize {
    let mut changes = 0usize;
    let mut before = None;
    for value in bag {
        if before.is_some() && before != Some(*value) {
            changes = changes.saturating_add(1);
        }
        before = Some(*value);
    }
    changes
}

fn counts_of_values<S: BuildHasher + Drop>(rt: &impl Abort, bag: &HashBag<u64, S>) {
    for (value, count) in bag.set_iter() {
        assert_eq!(rt; count, bag.contains(value), "of {value}");
    }
}

fn number_of_fives<S: BuildHasher + Drop>(bag: &HashBag<u64, S>) -> usize {
    let mut fives = 0usize;
    for value in bag.iter() {
        if *value == 5 {
            fives = fives.saturating_add(1);
        }
    }
    fives
}

// Checks the number of items that a caller found.
fn is_total(rt: &impl Abort, caller: &str, total: usize) {
    assert_eq!(rt; total, ITEMS, "by {caller}");
}

fn totals<S: BuildHasher + Drop>(rt: &impl Abort, bag: HashBag<u64, S>) {
    is_total(rt, "number_of_items", number_of_items(&bag));
    is_total(rt, "number_by_loop", number_by_loop(&bag));
    is_total(rt, "sum_of_counts", sum_of_counts(&bag));
    is_total(rt, "sum_by_loop", sum_by_loop(&bag));
    is_total(rt, "sum_used_up", sum_used_up(bag));
}

fn items_of_walks<S: BuildHasher + Drop>(rt: &impl Abort, bag: HashBag<u64, S>) {
    let got = (changes_of_value(&bag), number_of_fives(&bag));
    assert_eq!(rt; got, (2, 3));
    counts_of_values(rt, &bag);
    totals(rt, bag);
}

fn gives_the_same(rt: &impl Abort, walk: Iter<u64>, again: Iter<u64>) {
    for (one, other) in walk.zip(again) {
        assert_eq!(rt; *one, *other);
    }
}

// Checks that a clone that was taken after some items gives the same ones as the walk that it was taken of.
fn clones_go_on<S: BuildHasher + Drop>(
    rt: &impl Abort,
    bag: &HashBag<u64, S>,
    taken: usize,
) -> Result<(), Fail> {
    let mut walk = bag.iter();
    for _ in 0..taken {
        let _ = walk.next();
    }
    let again = walk.clone()?;
    has_left(rt, &walk, ITEMS.saturating_sub(taken));
    has_left(rt, &again, ITEMS.saturating_sub(taken));
    gives_the_same(rt, walk, again);
    Ok(())
}

fn set_clones_go_on<S: BuildHasher + Drop>(
    alloc: Global,
    bag: &HashBag<u64, S>,
) -> Result<(), Fail> {
    let mut walk = bag.set_iter();
    let _ = walk.next();
    let mut again = walk.clone()?;
    let wanted = debug_of(alloc, &walk.next())?;
    is_text_of(
        "a clone",
        debug_of(alloc, &again.next())?.as_str(),
        wanted.as_str(),
    )
}

fn all_clones_go_on<S: BuildHasher + Drop>(
    rt: &impl Abort,
    alloc: Global,
    bag: &HashBag<u64, S>,
) -> Result<(), Fail> {
    for taken in 0..=ITEMS {
        clones_go_on(rt, bag, taken)?;
    }
    set_clones_go_on(alloc, bag)
}

fn walks_over_sample<S: BuildHasher + Drop>(
    rt: &impl Abort,
    alloc: Global,
    state: S,
) -> Result<(), Fail> {
    let bag = sample_bag(alloc, state)?;
    borrowed_walks_dropped(rt, alloc, &bag)?;
    ends_after(rt, "iter", walk_of(&bag), ITEMS);
    ends_after(rt, "set_iter", set_walk_of(&bag), VALUES);
    all_clones_go_on(rt, alloc, &bag)?;
    items_of_walks(rt, bag);
    Ok(())
}

fn all_of<S: BuildHasher + Drop>(
    alloc: Global,
    bag: &mut HashBag<u64, S>,
) -> Result<Vec<(u64, usize)>, AllocError> {
    moved_out(alloc, bag)
}

fn list_moved_out<S: BuildHasher + Drop>(
    alloc: Global,
    bag: &mut HashBag<u64, S>,
) -> Result<(), Fail> {
    let mut list = all_of(alloc, bag)?;
    list.sort_unstable();
    is_text_of(
        "moved out",
        debug_of(alloc, &list)?.as_str(),
        "[(5, 3), (6, 2), (7, 1)]",
    )
}

fn first_of<S: BuildHasher + Drop>(bag: &mut HashBag<u64, S>) -> Option<(u64, usize)> {
    first_moved_out(bag)
}

fn moves_out_first<S: BuildHasher + Drop>(
    rt: &impl Abort,
    bag: &mut HashBag<u64, S>,
    wanted: Option<(u64, usize)>,
) {
    assert_eq!(rt; first_of(bag), wanted);
}

fn all_moved_out<S: BuildHasher + Default + Drop>(
    rt: &impl Abort,
    alloc: Global,
    state: S,
) -> Result<(), Fail> {
    let mut bag = sample_bag(alloc, state)?;
    list_moved_out(alloc, &mut bag)?;
    is_empty(rt, &bag);
    make_call(alloc, &mut bag, "insert 8 = 0")?;
    moves_out_first(rt, &mut bag, Some((8, 1)));
    moves_out_first(rt, &mut bag, None);
    Ok(())
}

// Checks the text that `Debug` writes.
fn is_shown<T: Debug>(alloc: Global, value: &T, want: &str) -> Result<(), Fail> {
    is_text_of("Debug", debug_of(alloc, value)?.as_str(), want)?;
    Ok(())
}

// A walk after its first item.
fn rest_of<S: BuildHasher + Drop>(bag: &HashBag<u64, S>) -> Iter<'_, u64> {
    let mut walk = bag.iter();
    let _ = walk.next();
    walk
}

fn texts_of_five<S: BuildHasher + Default + Drop>(alloc: Global, state: S) -> Result<(), Fail> {
    let mut bag = bag_of_counts(alloc, state, &[(5, 3)])?;
    texts_of_walks(alloc, &bag)?;
    texts_of_changes(alloc, &mut bag)?;
    texts_of_owned(alloc, bag)
}

// A bag of 5 three times, and its walks.
fn texts_of_walks<S: BuildHasher + Drop>(alloc: Global, bag: &HashBag<u64, S>) -> Result<(), Fail> {
    is_shown(alloc, bag, "{5, 5, 5}")?;
    is_shown(alloc, &walk_of(bag), "{5, 5, 5}")?;
    is_shown(alloc, &rest_of(bag), "{5, 5}")?;
    is_shown(alloc, &set_walk_of(bag), "{(5, 3)}")
}

// Its entry and its drain, which empties it; then it has the 5 again.
fn texts_of_changes<S: BuildHasher + Default + Drop>(
    alloc: Global,
    bag: &mut HashBag<u64, S>,
) -> Result<(), Fail> {
    is_shown(alloc, &bag.entry(5), "Entry(5, 3)")?;
    is_shown(alloc, &drain_of(bag), "[(5, 3)]")?;
    is_shown(alloc, &drain_of(bag), "[]")?;
    make_call(alloc, bag, "insert_many 5 3 = 0")
}

// A walk that owns its values shows those that are still to come.
fn texts_of_owned<S: BuildHasher + Drop>(alloc: Global, bag: HashBag<u64, S>) -> Result<(), Fail> {
    let mut walk = bag.into_iter();
    is_shown(alloc, &walk, "[(5, 3)]")?;
    let _ = walk.next();
    is_shown(alloc, &walk, "[]")
}

fn texts_of_nothing<S: BuildHasher + Drop>(alloc: Global, state: S) -> Result<(), Fail> {
    let mut bag: HashBag<u64, S> = HashBag::with_hasher(alloc, state);
    is_shown(alloc, &bag, "{}")?;
    is_shown(alloc, &walk_of(&bag), "{}")?;
    is_shown(alloc, &set_walk_of(&bag), "{}")?;
    is_shown(alloc, &drain_of(&mut bag), "[]")
}

// All of these under one state.
fn walks_under<S: BuildHasher + Default + Copy>(
    rt: &impl Abort,
    alloc: Global,
    state: S,
) -> Result<(), Fail> {
    walks_over_names::<S>(rt, alloc)?;
    walks_over_sample(rt, alloc, state)?;
    owned_walks_dropped(rt, alloc, state)?;
    all_moved_out(rt, alloc, state)?;
    texts_of_five(alloc, state)?;
    texts_of_nothing(alloc, state)
}

#[test]
fn walks_of_fixed_state(rt: HostRuntime) -> Result<(), Fail> {
    walks_under(&rt, rt.alloc(), FixedState::new())
}

#[test]
fn walks_of_one_state(rt: HostRuntime) -> Result<(), Fail> {
    walks_under(&rt, rt.alloc(), OneState)
}

#[test]
fn walks_of_parity_state(rt: HostRuntime) -> Result<(), Fail> {
    walks_under(&rt, rt.alloc(), ParityState)
}

#[test]
fn walks_of_identity_state(rt: HostRuntime) -> Result<(), Fail> {
    walks_under(&rt, rt.alloc(), IdentityState)
}
