//! Each value is dropped once, by the call that takes it out or by the bag, while the tables grow, carry and are built anew.
use hashbag::{BagError, FixedState, HashBag};
use std::alloc::Global;
use std::cell::Cell;
use std::hash::BuildHasher;
use std::process::Abort;
use std::test::Fail;
use tests_kit::OneState;
use tests_kit::calls::{insert, replace};
use tests_slots::counted::Counted;

// Checks how many values were dropped.
fn has_dropped(rt: &impl Abort, call: &str, drops: &Cell<usize>, wanted: usize) {
    assert_eq!(rt; drops.get(), wanted, "after {call}");
}

fn value<'a>(drops: &'a Cell<usize>, key: u64) -> Counted<'a> {
    Counted { key, tag: 1, drops }
}

// The keys below 25, in a bag in the middle of a carry.
fn carrying<'a, S: BuildHasher + Drop>(
    rt: &impl Abort,
    alloc: Global,
    state: S,
    drops: &'a Cell<usize>,
) -> Result<HashBag<Counted<'a>, S>, Fail> {
    let mut bag = HashBag::with_hasher(alloc, state);
    for key in 0..25 {
        insert(&mut bag, value(drops, key))?;
    }
    assert_eq!(rt; bag.waiting(), 16);
    has_dropped(rt, "insertions", drops, 0);
    Ok(bag)
}

// Checks that the given value is dropped if an equal one stays, and the stored one if it is replaced.
fn equal_values<'a, S: BuildHasher + Drop>(
    rt: &impl Abort,
    bag: &mut HashBag<Counted<'a>, S>,
    drops: &'a Cell<usize>,
) -> Result<(), Fail> {
    for key in 0..25 {
        insert(bag, value(drops, key))?;
    }
    has_dropped(rt, "insertions of equal values", drops, 25);
    for key in 0..25 {
        replace(bag, value(drops, key))?;
    }
    has_dropped(rt, "replacements", drops, 50);
    Ok(())
}

fn remove<'a, S: BuildHasher + Drop>(
    bag: &mut HashBag<Counted<'a>, S>,
    probes: &'a Cell<usize>,
    key: u64,
) {
    bag.remove(&value(probes, key));
}

fn take_all<'a, S: BuildHasher + Drop>(
    bag: &mut HashBag<Counted<'a>, S>,
    probes: &'a Cell<usize>,
    key: u64,
) -> Option<(Counted<'a>, usize)> {
    bag.take_all(&value(probes, key))
}

// Of 25 values 24 to 8 are left.
fn taken_out<'a, S: BuildHasher + Drop>(
    rt: &impl Abort,
    bag: &mut HashBag<Counted<'a>, S>,
    drops: &'a Cell<usize>,
    probes: &'a Cell<usize>,
) {
    for key in 0..8 {
        remove(bag, probes, key);
        has_dropped(rt, "a removal", drops, 51usize.saturating_add(key as usize));
    }
    let taken = take_all(bag, probes, 8);
    has_dropped(rt, "a take", drops, 58);
    drop(taken);
    has_dropped(rt, "the drop of what was taken", drops, 59);
}

fn reserve<S: BuildHasher + Drop>(bag: &mut HashBag<Counted<'_>, S>) -> Result<(), BagError> {
    bag.reserve(200)
}

fn shrink_to_fit<S: BuildHasher + Drop>(bag: &mut HashBag<Counted<'_>, S>) -> Result<(), BagError> {
    bag.shrink_to_fit()
}

fn retain_odd<S: BuildHasher + Drop>(bag: &mut HashBag<Counted<'_>, S>) {
    bag.retain(|value: &Counted, _count: usize| (value.key % 2) as usize);
}

fn clear<S: BuildHasher + Drop>(bag: &mut HashBag<Counted<'_>, S>) {
    bag.clear();
}

// Checks that no value is dropped when all move, and that `retain` then drops those of even keys.
fn moved_and_retained<'a, S: BuildHasher + Drop>(
    rt: &impl Abort,
    bag: &mut HashBag<Counted<'a>, S>,
    drops: &'a Cell<usize>,
) -> Result<(), Fail> {
    reserve(bag)?;
    has_dropped(rt, "reserve", drops, 59);
    shrink_to_fit(bag)?;
    has_dropped(rt, "shrink_to_fit", drops, 59);
    retain_odd(bag);
    has_dropped(rt, "retain", drops, 67);
    assert_eq!(rt; bag.set_len(), 8);
    Ok(())
}

fn drained<'a, S: BuildHasher + Drop>(
    rt: &impl Abort,
    bag: &mut HashBag<Counted<'a>, S>,
    drops: &'a Cell<usize>,
) {
    let mut drain = bag.drain();
    drop(drain.next());
    has_dropped(rt, "an item of a drain", drops, 68);
    drop(drain);
    has_dropped(rt, "a drain", drops, 75);
}

// A value that is inserted again and cleared away, and one that stays.
fn cleared<'a, S: BuildHasher + Drop>(
    rt: &impl Abort,
    bag: &mut HashBag<Counted<'a>, S>,
    drops: &'a Cell<usize>,
) -> Result<(), Fail> {
    insert(bag, value(drops, 5))?;
    clear(bag);
    has_dropped(rt, "clear", drops, 76);
    insert(bag, value(drops, 6))?;
    Ok(())
}

// Each of these calls on one bag.
fn dropped_by_calls<'a, S: BuildHasher + Drop>(
    rt: &impl Abort,
    bag: &mut HashBag<Counted<'a>, S>,
    drops: &'a Cell<usize>,
    probes: &'a Cell<usize>,
) -> Result<(), Fail> {
    equal_values(rt, bag, drops)?;
    taken_out(rt, bag, drops, probes);
    moved_and_retained(rt, bag, drops)?;
    drained(rt, bag, drops);
    cleared(rt, bag, drops)
}

fn drops_under<S: BuildHasher + Drop>(
    rt: &impl Abort,
    alloc: Global,
    state: S,
) -> Result<(), Fail> {
    let (drops, probes) = (Cell::new(0), Cell::new(0));
    let mut bag = carrying(rt, alloc, state, &drops)?;
    dropped_by_calls(rt, &mut bag, &drops, &probes)?;
    drop(bag);
    has_dropped(rt, "the drop of the bag", &drops, 77);
    Ok(())
}

fn finish_carry<S: BuildHasher + Drop>(bag: &mut HashBag<Counted<'_>, S>) {
    bag.finish_carry();
}

// Checks that a carry that is ended drops nothing, and the bag drops each value then.
fn carry_ended<S: BuildHasher + Drop>(
    rt: &impl Abort,
    alloc: Global,
    state: S,
) -> Result<(), Fail> {
    let drops = Cell::new(0);
    let mut bag = carrying(rt, alloc, state, &drops)?;
    finish_carry(&mut bag);
    has_dropped(rt, "the end of a carry", &drops, 0);
    assert_eq!(rt; bag.waiting(), 0);
    drop(bag);
    has_dropped(rt, "the drop of a bag whose carry was ended", &drops, 25);
    Ok(())
}

fn bag_dropped_in_a_carry<S: BuildHasher + Drop>(
    rt: &impl Abort,
    alloc: Global,
    state: S,
) -> Result<(), Fail> {
    let drops = Cell::new(0);
    drop(carrying(rt, alloc, state, &drops)?);
    has_dropped(rt, "the drop of a bag that carries", &drops, 25);
    Ok(())
}

// The next item of a walk. A loop that calls this counts by itself and not by the walk.
fn next_of<I: Iterator>(walk: &mut I) -> Option<I::Item>
where
    requires any { (state : _) → I.can_next state }
{
    walk.next()
}

// The first items of a walk, which their taker drops.
fn drop_items<I: Iterator>(walk: &mut I, taken: usize)
where
    I::Item: Drop,
    requires any { (state : _) → I.can_next state }
{
    for _ in 0..taken {
        drop(next_of(walk));
    }
}

// A drain that is dropped after some of its items.
fn drain_dropped<S: BuildHasher + Drop>(
    rt: &impl Abort,
    bag: &mut HashBag<Counted<'_>, S>,
    drops: &Cell<usize>,
    taken: usize,
) {
    let mut drain = bag.drain();
    drop_items(&mut drain, taken);
    has_dropped(rt, "the items of a drain", drops, taken);
    drop(drain);
    has_dropped(rt, "the drop of a drain", drops, 25);
}

// A bag that is drained in the middle of a carry. A value is inserted again, and dropped with the bag.
fn drained_bag_dropped<S: BuildHasher + Drop>(
    rt: &impl Abort,
    alloc: Global,
    state: S,
    taken: usize,
) -> Result<(), Fail> {
    let drops = Cell::new(0);
    let mut bag = carrying(rt, alloc, state, &drops)?;
    drain_dropped(rt, &mut bag, &drops, taken);
    insert(&mut bag, value(&drops, 3))?;
    drop(bag);
    has_dropped(rt, "the drop of a drained bag", &drops, 26);
    Ok(())
}

// An owning walk over a bag in the middle of a carry that is dropped after some of its items.
fn owning_walk_dropped<S: BuildHasher + Drop>(
    rt: &impl Abort,
    alloc: Global,
    state: S,
    taken: usize,
) -> Result<(), Fail> {
    let drops = Cell::new(0);
    let mut walk = carrying(rt, alloc, state, &drops)?.into_iter();
    drop_items(&mut walk, taken);
    has_dropped(rt, "the items of an owning walk", &drops, taken);
    drop(walk);
    has_dropped(rt, "the drop of an owning walk", &drops, 25);
    Ok(())
}

// Walks that lend what a bag has, dropped after some of their items, drop none of it.
fn lent<'a, S: BuildHasher + Drop>(
    rt: &impl Abort,
    bag: &HashBag<Counted<'a>, S>,
    drops: &Cell<usize>,
    taken: usize,
) {
    let mut items = bag.iter();
    drop_items(&mut items, taken);
    drop(items);
    has_dropped(rt, "a walk", drops, 0);
    let mut values = bag.set_iter();
    drop_items(&mut values, taken);
    drop(values);
    has_dropped(rt, "a walk over values with counts", drops, 0);
}

// Such walks over a bag in the middle of a carry, after each number of items.
fn lending_walks_dropped<S: BuildHasher + Drop>(
    rt: &impl Abort,
    alloc: Global,
    state: S,
) -> Result<(), Fail> {
    let drops = Cell::new(0);
    let bag = carrying(rt, alloc, state, &drops)?;
    for taken in 0..=25 {
        lent(rt, &bag, &drops, taken);
    }
    drop(bag);
    has_dropped(rt, "the drop of a bag that lent", &drops, 25);
    Ok(())
}

fn each_walk_dropped<S: BuildHasher + Copy>(
    rt: &impl Abort,
    alloc: Global,
    state: S,
) -> Result<(), Fail> {
    for taken in 0..=25 {
        drained_bag_dropped(rt, alloc, state, taken)?;
        owning_walk_dropped(rt, alloc, state, taken)?;
    }
    lending_walks_dropped(rt, alloc, state)
}

#[test]
fn drops_of_fixed_state(rt: HostRuntime) -> Result<(), Fail> {
    drops_under(&rt, rt.alloc(), FixedState::new())?;
    each_walk_dropped(&rt, rt.alloc(), FixedState::new())?;
    carry_ended(&rt, rt.alloc(), FixedState::new())?;
    bag_dropped_in_a_carry(&rt, rt.alloc(), FixedState::new())
}

#[test]
fn drops_of_one_state(rt: HostRuntime) -> Result<(), Fail> {
    drops_under(&rt, rt.alloc(), OneState)?;
    each_walk_dropped(&rt, rt.alloc(), OneState)?;
    carry_ended(&rt, rt.alloc(), OneState)?;
    bag_dropped_in_a_carry(&rt, rt.alloc(), OneState)
}
