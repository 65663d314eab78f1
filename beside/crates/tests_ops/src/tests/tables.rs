//! The two tables of slots behind a bag after each call. The numbers don't depend on the hash.
use crate::tests::bags::{bag_of, thirds};
use crate::tests::calls::answer;
use hashbag::{FixedState, HashBag};
use std::alloc::Global;
use std::hash::BuildHasher;
use std::test::Fail;
use tests_kit::texts::{halves, is_text};
use tests_kit::{IdentityState, OneState, calls, rows_of};

// A call, two bags, and the slots, those that wait, and the room of the first bag after it. 25 values take 64 slots, of which 16 of the
// table before wait, with room for 23.
const ROWS: &str = "
    merge | | | (0, 0, 0)
    merge | | 1:1 2:1 | (16, 0, 10)
    merge | 1:1 2:1 | | (16, 0, 10)
    merge | 1..=25 | | (64, 16, 23)
    merge | 1..=25 | 1:5 25:2 | (64, 16, 23)
    merge | 1..=25 | 26:1 | (64, 0, 22)
    merge | 1..=25 | 26..=48 | (64, 0, 0)
    merge | 1..=25 | 1:1 26..=48 | (64, 0, 0)
    merge | 1..=25 | 2..=49 | (128, 0, 47)
    merge | 1:1 | 1..=25 | (64, 0, 23)
    merge | 1..=12 | 1..=12 | (16, 0, 0)
    merge | 1..=12 | 1..=13 | (64, 0, 35)
    merge | 1..=5 | 1..=8 | (16, 0, 4)
    merge | 1..=5 | 6..=20 | (32, 0, 4)
    merge_ref | | | (0, 0, 0)
    merge_ref | 1..=25 | 1:5 25:2 | (64, 16, 23)
    merge_ref | 1..=25 | 26:1 | (64, 0, 22)
    merge_ref | 1:1 | 1..=25 | (64, 0, 23)
    keep_most | 1..=25 | 1:1 2:1 | (64, 16, 23)
    keep_most | 1..=25 | 1:2 26:1 | (64, 0, 22)
    keep_most | 1..=12 | 1..=12 | (16, 0, 0)
    keep_most | 1..=12 | 1:2 2..=12 | (16, 0, 0)
    keep_common | | 1:1 | (0, 0, 0)
    keep_common | 1:1 2:5 3:1 | 2:1 | (16, 0, 9)
    keep_common | 1..=25 | 1..=25 | (64, 16, 23)
    take_away | | 1:1 | (0, 0, 0)
    take_away | 1:1 2:2 3:1 | 2:1 3:5 | (16, 0, 9)
    take_away | 1..=25 | | (64, 16, 23)
    take_away | 1..=25 | 26:1 | (64, 16, 23)";

// The tables after a call.
fn tables_after<S: BuildHasher + Default + Drop, S2: BuildHasher + Default + Clone + Drop>(
    alloc: Global,
    call: &str,
    first: &str,
    second: &str,
) -> Result<String, Fail> {
    let mut a: HashBag<u64, S> = bag_of(alloc, first)?;
    let b: HashBag<u64, S2> = bag_of(alloc, second)?;
    answer(alloc, call, &mut a, b)?;
    calls::answer(alloc, &mut a, "tables")
}

fn has_tables<S: BuildHasher + Default + Drop, S2: BuildHasher + Default + Clone + Drop>(
    alloc: Global,
    row: &str,
) -> Result<(), Fail> {
    let (call, first, rest) = thirds(row)?;
    let (second, wanted) = halves(rest, "|")?;
    let got = tables_after::<S, S2>(alloc, call, first, second)?;
    is_text(got.as_str(), wanted)
}

#[test]
fn tables_after_each_call(rt: HostRuntime) -> Result<(), Fail> {
    for row in rows_of(rt.alloc(), ROWS)? {
        row.tested(has_tables::<FixedState, OneState>(rt.alloc(), row.text))?;
        row.tested(has_tables::<OneState, IdentityState>(rt.alloc(), row.text))?;
    }
    Ok(())
}
