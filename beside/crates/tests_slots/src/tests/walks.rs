//! Walks over two tables: of so few slots each all are of one pass, so the newer table's values come first, in the order of their places.
use crate::tests::checks::returns;
use crate::tests::places::{Numbers, numbers};
use hashbag_slots::walk::{IntoWalk, Walk};
use std::process::Abort;
use std::test::Fail;

// The next value of a walk, with its count.
fn next_of(walk: &mut Walk<'_, u64>) -> Option<(u64, usize)> {
    match walk.next() {
        Some((value, count)) => Some((*value, count)),
        None => None,
    }
}

// Checks what a walk gives, one after another, and that it knows before each how many are left.
fn gives(rt: &impl Abort, mut walk: Walk<'_, u64>, wanted: &[(u64, usize)]) {
    let mut left = wanted.len();
    for entry in wanted {
        returns(
            rt,
            "hint before",
            entry.0,
            &walk.size_hint(),
            &(left, Some(left)),
        );
        returns(
            rt,
            "next before",
            entry.0,
            &next_of(&mut walk),
            &Some(*entry),
        );
        left = left.saturating_sub(1);
    }
    returns(rt, "length after", 0, &walk.len(), &0);
    for again in 0..2 {
        returns(rt, "next after all", again, &next_of(&mut walk), &None);
    }
}

fn table_gives(rt: &impl Abort, table: &Numbers, older: &Numbers, wanted: &[(u64, usize)]) {
    gives(rt, table.slots.walk(&older.slots), wanted);
}

// A walk whose first value was taken, and its clone.
fn both_give(
    rt: &impl Abort,
    table: &Numbers,
    older: &Numbers,
    wanted: &[(u64, usize)],
) -> Result<(), Fail> {
    let mut walk = table.slots.walk(&older.slots);
    let _ = walk.next();
    gives(rt, walk.clone()?, wanted);
    gives(rt, walk, wanted);
    Ok(())
}

// The values go past the last slot: 2 and 3 are at the places 0 and 1.
#[test]
fn lent(rt: HostRuntime) -> Result<(), Fail> {
    let mut table = numbers(rt.alloc(), 15, 4)?;
    let none = numbers(rt.alloc(), 0, 0)?;
    table_gives(&rt, &table, &none, &[(2, 2), (3, 3), (4, 4), (1, 1)]);
    table_gives(&rt, &none, &table, &[(2, 2), (3, 3), (4, 4), (1, 1)]);
    both_give(&rt, &table, &none, &[(3, 3), (4, 4), (1, 1)])?;
    both_give(&rt, &none, &table, &[(3, 3), (4, 4), (1, 1)])?;
    returns(&rt, "take", 3, &table.take(&3), &Some((3, 3)));
    let older = numbers(rt.alloc(), 7, 1)?;
    table_gives(&rt, &table, &older, &[(2, 2), (4, 4), (1, 1), (1, 1)]);
    Ok(())
}

// Checks what an owning walk has left, and how many.
fn rest_gives(rt: &impl Abort, walk: &IntoWalk<u64>, wanted: &[(u64, usize)]) {
    let left = wanted.len();
    returns(
        rt,
        "hint of the rest",
        0,
        &walk.size_hint(),
        &(left, Some(left)),
    );
    returns(rt, "length of the rest", 0, &walk.len(), &left);
    gives(rt, walk.rest(), wanted);
}

fn next_is(rt: &impl Abort, walk: &mut IntoWalk<u64>, wanted: Option<(u64, usize)>) {
    returns(rt, "next of the owning walk", 0, &walk.next(), &wanted);
}

#[test]
fn owned(rt: HostRuntime) -> Result<(), Fail> {
    let older = numbers(rt.alloc(), 7, 1)?;
    let mut walk = numbers(rt.alloc(), 15, 3)?.into_walk(older);
    rest_gives(&rt, &walk, &[(2, 2), (3, 3), (1, 1), (1, 1)]);
    next_is(&rt, &mut walk, Some((2, 2)));
    rest_gives(&rt, &walk, &[(3, 3), (1, 1), (1, 1)]);
    next_is(&rt, &mut walk, Some((3, 3)));
    next_is(&rt, &mut walk, Some((1, 1)));
    rest_gives(&rt, &walk, &[(1, 1)]);
    next_is(&rt, &mut walk, Some((1, 1)));
    rest_gives(&rt, &walk, &[]);
    next_is(&rt, &mut walk, None);
    next_is(&rt, &mut walk, None);
    Ok(())
}
