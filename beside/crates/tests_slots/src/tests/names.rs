//! Values that own memory.
use crate::tests::checks::returns;
use crate::tests::held::Held;
use crate::tests::pair::Pair;
use std::alloc::{AllocError, Global};
use std::hash::{BuildHasherDefault, FoldHasher};
use std::process::Abort;
use std::test::Fail;

type Names = Held<String, BuildHasherDefault<FoldHasher>>;

const EIGHT: [&str; 8] = [
    "Einar",
    "Olaf",
    "Harald",
    "",
    "Ha",
    "Ingrid",
    "Harald Hardrada",
    "Astrid",
];

fn place(rt: &impl Abort, alloc: Global, table: &mut Names, name: &str) -> Result<(), AllocError> {
    let owned = String::from_str(alloc, name)?;
    assert!(rt; table.place(owned, name.len().min(99) + 1), "{name}");
    Ok(())
}

// The names, each once more often than it has letters.
fn eight_names(rt: &impl Abort, alloc: Global) -> Result<Names, AllocError> {
    let mut table = Held::new(alloc, BuildHasherDefault::new(), 4)?;
    for name in &EIGHT {
        place(rt, alloc, &mut table, name)?;
    }
    Ok(table)
}

// Checks the count of a name.
fn has_count(
    rt: &impl Abort,
    alloc: Global,
    table: &Names,
    name: &str,
    wanted: usize,
) -> Result<(), AllocError> {
    let owned = String::from_str(alloc, name)?;
    returns(rt, name, 0, &table.count(&owned), &wanted);
    Ok(())
}

#[test]
fn are_found(rt: HostRuntime) -> Result<(), Fail> {
    let table = eight_names(&rt, rt.alloc())?;
    for (name, count) in [("Einar", 6), ("", 1), ("Harald Hardrada", 16), ("Har", 0)] {
        has_count(&rt, rt.alloc(), &table, name, count)?;
    }
    Ok(())
}

// Takes a name out, which is so often there.
fn take(
    rt: &impl Abort,
    alloc: Global,
    table: &mut Names,
    name: &str,
    count: usize,
) -> Result<(), AllocError> {
    let owned = String::from_str(alloc, name)?;
    let is_it = match table.take(&owned) {
        Some((taken, before)) => taken == owned && before == count,
        None => false,
    };
    assert!(rt; is_it, "{name}");
    Ok(())
}

#[test]
fn are_taken(rt: HostRuntime) -> Result<(), Fail> {
    let mut table = eight_names(&rt, rt.alloc())?;
    take(&rt, rt.alloc(), &mut table, "Harald", 7)?;
    for (name, count) in [("Harald", 0), ("Ha", 3), ("Olaf", 5)] {
        has_count(&rt, rt.alloc(), &table, name, count)?;
    }
    Ok(())
}

#[test]
fn are_carried(rt: HostRuntime) -> Result<(), Fail> {
    let table = eight_names(&rt, rt.alloc())?;
    let mut pair = Pair::new(rt.alloc(), table, 5)?;
    for looked in [7, 14, 16] {
        returns(&rt, "carry", 7, &pair.carry(7), &looked);
        let live = pair.newer.live().saturating_add(pair.older.live());
        returns(&rt, "live", 0, &live, &8);
    }
    for (value, count) in pair.newer.walk(&pair.older) {
        assert_eq!(&rt; value.len().min(99) + 1, count, "of {value}");
    }
    Ok(())
}
