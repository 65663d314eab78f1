//! A table against a plain list of counts, through many calls under a hash that spreads its values.
use crate::tests::checks::returns;
use crate::tests::held::Held;
use std::hash::{BuildHasherDefault, FoldHasher};
use std::process::Abort;
use std::test::Fail;

type Numbers = Held<u64, BuildHasherDefault<FoldHasher>>;

// How many different values there are. The table has 64 slots, so that paths run into one another.
const VALUES: usize = 60;

// The next of a fixed row of numbers that look random.
fn next_number(number: u64) -> u64 {
    number
        .wrapping_mul(6364136223846793005)
        .wrapping_add(1442695040888963407)
}

// Adds one of a value, and checks the count before.
fn insert(rt: &impl Abort, table: &mut Numbers, value: u64, before: usize) {
    if before == 0 {
        returns(rt, "place", value, &table.place(value, 1), &true);
    } else {
        returns(rt, "add", value, &table.add(&value, 1), &before);
    }
}

// Removes a value, and checks its count.
fn take(rt: &impl Abort, table: &mut Numbers, value: u64, before: usize) {
    let wanted = if before == 0 {
        None
    } else {
        Some((value, before))
    };
    returns(rt, "take", value, &table.take(&value), &wanted);
}

// How many values have a count.
fn live_of(counts: &[usize; VALUES]) -> usize {
    let mut live = 0usize;
    for count in counts {
        if *count > 0 {
            live = live.saturating_add(1);
        }
    }
    live
}

// Checks the counts of all values by look-ups.
fn finds_all(rt: &impl Abort, table: &Numbers, counts: &[usize; VALUES]) {
    for value in 0..VALUES {
        let key = value as u64;
        returns(rt, "count", key, &table.count(&key), &counts[value]);
    }
}

// Checks the counts of all values by a walk.
fn walks_over_all(rt: &impl Abort, table: &Numbers, none: &Numbers, counts: &[usize; VALUES]) {
    let live = live_of(counts);
    returns(rt, "live", 0, &table.slots.live(), &live);
    returns(rt, "walk", 0, &table.slots.walk(&none.slots).len(), &live);
    for (value, count) in table.slots.walk(&none.slots) {
        let wanted = counts.get(*value as usize).copied();
        returns(rt, "walk", *value, &Some(count), &wanted);
    }
}

#[test]
fn with_a_list_of_counts(rt: HostRuntime) -> Result<(), Fail> {
    let mut table: Numbers = Held::new(rt.alloc(), BuildHasherDefault::new(), 6)?;
    let none: Numbers = Held::none(rt.alloc(), BuildHasherDefault::new())?;
    let mut counts = [0; VALUES];
    let mut number = 1;
    for step in 0..3000 {
        number = next_number(number);
        let value = (number >> 33) as usize % VALUES;
        let before = counts[value];
        assert!(&rt; before < 3000);
        if step % 5 < 3 {
            insert(&rt, &mut table, value as u64, before);
            counts[value] = before + 1;
        } else {
            take(&rt, &mut table, value as u64, before);
            counts[value] = 0;
        }
    }
    finds_all(&rt, &table, &counts);
    walks_over_all(&rt, &table, &none, &counts);
    Ok(())
}
