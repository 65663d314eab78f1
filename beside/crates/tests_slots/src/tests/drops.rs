//! Each value is dropped once: by its taker, by a table that is cleared or dropped, or by a walk.
use crate::constant::Constant;
use crate::counted::Counted;
use crate::tests::checks::returns;
use crate::tests::held::Held;
use crate::tests::pair::Pair;
use hashbag_slots::walk::IntoWalk;
use std::alloc::{AllocError, Global};
use std::cell::Cell;
use std::process::Abort;
use std::test::Fail;

type Values<'a> = Held<Counted<'a>, Constant>;

// Checks how many values were dropped.
fn has_dropped(rt: &impl Abort, call: &str, drops: &Cell<usize>, wanted: usize) {
    assert_eq!(rt; drops.get(), wanted, "after {call}");
}

// Returns a table of `many` values, which count their drops. They all hash to 15, the last of 16 slots, so their path goes on at slot 0.
fn values<'a>(
    rt: &impl Abort,
    alloc: Global,
    drops: &'a Cell<usize>,
    many: u64,
) -> Result<Values<'a>, AllocError> {
    let mut table = Held::new(alloc, Constant { hash: 15 }, 4)?;
    for key in 0..many {
        let value = Counted { key, tag: 1, drops };
        assert!(rt; table.place(value, 2), "{key}");
    }
    has_dropped(rt, "placing", drops, 0);
    Ok(table)
}

// Takes a value out. What it is looked up by counts its drops elsewhere.
fn take<'a>(
    table: &mut Values<'a>,
    probes: &'a Cell<usize>,
    key: u64,
) -> Option<(Counted<'a>, usize)> {
    let probe = Counted {
        key,
        tag: 0,
        drops: probes,
    };
    table.take(&probe)
}

#[test]
fn by_the_table(rt: HostRuntime) -> Result<(), Fail> {
    let drops = Cell::new(0);
    drop(values(&rt, rt.alloc(), &drops, 5)?);
    has_dropped(&rt, "the drop of the table", &drops, 5);
    Ok(())
}

#[test]
fn none_by_no_values(rt: HostRuntime) -> Result<(), Fail> {
    let drops = Cell::new(0);
    drop(values(&rt, rt.alloc(), &drops, 0)?);
    has_dropped(&rt, "the drop of the table", &drops, 0);
    Ok(())
}

// What was taken out is dropped by its taker; the number of drops before is checked.
fn is_dropped_by_its_taker<'a>(
    rt: &impl Abort,
    table: &mut Values<'a>,
    drops: &Cell<usize>,
    probes: &'a Cell<usize>,
    key: u64,
    before: usize,
) {
    let taken = take(table, probes, key);
    has_dropped(rt, "a take", drops, before);
    returns(rt, "take", key, &taken.is_some(), &true);
    drop(taken);
    has_dropped(
        rt,
        "the drop of what was taken",
        drops,
        before.saturating_add(1),
    );
}

// What stays is dropped by the table.
#[test]
fn by_the_taker(rt: HostRuntime) -> Result<(), Fail> {
    let (drops, probes) = (Cell::new(0), Cell::new(0));
    let mut table = values(&rt, rt.alloc(), &drops, 5)?;
    is_dropped_by_its_taker(&rt, &mut table, &drops, &probes, 0, 0);
    is_dropped_by_its_taker(&rt, &mut table, &drops, &probes, 3, 1);
    drop(table);
    has_dropped(&rt, "the drop of the table", &drops, 5);
    Ok(())
}

fn place<'a>(rt: &impl Abort, table: &mut Values<'a>, drops: &'a Cell<usize>, key: u64) {
    let value = Counted { key, tag: 1, drops };
    returns(rt, "place", key, &table.place(value, 1), &true);
}

// A slot that was Removed is used again: its first value was dropped long ago.
#[test]
fn after_removal(rt: HostRuntime) -> Result<(), Fail> {
    let (drops, probes) = (Cell::new(0), Cell::new(0));
    let mut table = values(&rt, rt.alloc(), &drops, 3)?;
    drop(take(&mut table, &probes, 1));
    place(&rt, &mut table, &drops, 8);
    has_dropped(&rt, "a placing", &drops, 1);
    drop(table);
    has_dropped(&rt, "the drop of the table", &drops, 4);
    Ok(())
}

// Another instance of a value is stored, and the former one is returned.
fn put_gives_former<'a>(rt: &impl Abort, table: &mut Values<'a>, drops: &'a Cell<usize>) {
    let former = table.put(Counted {
        key: 2,
        tag: 7,
        drops,
    });
    returns(rt, "put", 2, &former.tag, &1);
    has_dropped(rt, "a put", drops, 0);
    drop(former);
    has_dropped(rt, "the drop of the former", drops, 1);
}

// The tag and the count of what was taken out.
fn tag_and_count(taken: &Option<(Counted<'_>, usize)>) -> Option<(u64, usize)> {
    match taken {
        Some((value, count)) => Some((value.tag, *count)),
        None => None,
    }
}

// The instance that is stored stays.
#[test]
fn of_another_instance(rt: HostRuntime) -> Result<(), Fail> {
    let (drops, probes) = (Cell::new(0), Cell::new(0));
    let mut table = values(&rt, rt.alloc(), &drops, 3)?;
    put_gives_former(&rt, &mut table, &drops);
    let taken = take(&mut table, &probes, 2);
    returns(&rt, "take", 2, &tag_and_count(&taken), &Some((7, 2)));
    drop(taken);
    drop(table);
    has_dropped(&rt, "the drop of the table", &drops, 4);
    Ok(())
}

#[test]
fn by_clear(rt: HostRuntime) -> Result<(), Fail> {
    let drops = Cell::new(0);
    let mut table = values(&rt, rt.alloc(), &drops, 16)?;
    table.clear();
    has_dropped(&rt, "clear", &drops, 16);
    drop(table);
    has_dropped(&rt, "the drop of the table", &drops, 16);
    Ok(())
}

// Takes the next values of a walk, and drops each.
fn drop_next(rt: &impl Abort, walk: &mut IntoWalk<Counted<'_>>, drops: &Cell<usize>, taken: usize) {
    for before in 0..taken {
        has_dropped(rt, "an item", drops, before);
        drop(walk.next());
    }
}

// A walk that is dropped after some of its values.
fn walk_half_way(rt: &impl Abort, alloc: Global, taken: usize) -> Result<(), AllocError> {
    let drops = Cell::new(0);
    let older = values(rt, alloc, &drops, 2)?;
    let mut walk = values(rt, alloc, &drops, 3)?.into_walk(older);
    drop_next(rt, &mut walk, &drops, taken);
    has_dropped(rt, "the items", &drops, taken.min(5));
    drop(walk);
    has_dropped(rt, "the drop of the walk", &drops, 5);
    Ok(())
}

#[test]
fn by_walks(rt: HostRuntime) -> Result<(), Fail> {
    for taken in 0..7 {
        walk_half_way(&rt, rt.alloc(), taken)?;
    }
    Ok(())
}

// Two tables that are dropped after some slots were carried.
fn carry_half_way(rt: &impl Abort, alloc: Global, carried: usize) -> Result<(), AllocError> {
    let drops = Cell::new(0);
    let mut pair = Pair::new(alloc, values(rt, alloc, &drops, 4)?, 5)?;
    returns(rt, "carry", carried as u64, &pair.carry(carried), &carried);
    has_dropped(rt, "a carry", &drops, 0);
    drop(pair);
    has_dropped(rt, "the drop of two tables", &drops, 4);
    Ok(())
}

#[test]
fn by_two_tables(rt: HostRuntime) -> Result<(), Fail> {
    for carried in [0, 1, 2, 15, 16] {
        carry_half_way(&rt, rt.alloc(), carried)?;
    }
    Ok(())
}
