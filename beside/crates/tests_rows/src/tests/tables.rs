//! The two tables of slots behind a bag: how many slots there are, how many wait to be carried, and how much room is left, after each call.
//! Unless a comment speaks of the hash, these numbers are the same under each hash state.
use hashbag::{BagError, HashBag};
use std::alloc::Global;
use std::hash::BuildHasher;
use std::test::Fail;
use tests_kit::calls::{clone_of, make_calls, make_rows, make_rows_under_each};
use tests_kit::texts::{count, debug_of, halves, is_text};
use tests_kit::{OneState, rows_of};

// `tables` returns the slots of the newer table, the slots that wait, and the room.
const ROWS: &str = "
    [no table]
    tables = (0, 0, 0)
    capacity = 0

    [each insertion]
    insert 1 = 0
    tables = (16, 0, 11)
    insert 2 = 0
    tables = (16, 0, 10)
    insert 3 = 0
    tables = (16, 0, 9)
    insert 4 = 0
    tables = (16, 0, 8)
    insert 5 = 0
    tables = (16, 0, 7)
    insert 6 = 0
    tables = (16, 0, 6)
    insert 7 = 0
    tables = (16, 0, 5)
    insert 8 = 0
    tables = (16, 0, 4)
    insert 9 = 0
    tables = (16, 0, 3)
    insert 10 = 0
    tables = (16, 0, 2)
    insert 11 = 0
    tables = (16, 0, 1)
    insert 12 = 0
    tables = (16, 0, 0)
    insert 13 = 0
    tables = (32, 0, 11)
    insert 14 = 0
    tables = (32, 0, 10)
    insert 15 = 0
    tables = (32, 0, 9)
    insert 16 = 0
    tables = (32, 0, 8)
    insert 17 = 0
    tables = (32, 0, 7)
    insert 18 = 0
    tables = (32, 0, 6)
    insert 19 = 0
    tables = (32, 0, 5)
    insert 20 = 0
    tables = (32, 0, 4)
    insert 21 = 0
    tables = (32, 0, 3)
    insert 22 = 0
    tables = (32, 0, 2)
    insert 23 = 0
    tables = (32, 0, 1)
    insert 24 = 0
    tables = (32, 0, 0)
    insert 25 = 0
    tables = (64, 16, 23)
    insert 26 = 0
    tables = (64, 0, 22)
    insert 27 = 0
    tables = (64, 0, 21)
    insert 27 = 1
    tables = (64, 0, 21)

    [from 48 values to 52]
    extend [0..=47] = ()
    tables = (64, 0, 0)
    insert 48 = 0
    tables = (128, 48, 47)
    insert 49 = 0
    tables = (128, 32, 46)
    insert 50 = 0
    tables = (128, 16, 45)
    insert 51 = 0
    tables = (128, 0, 44)
    counts [44..=52] = [1, 1, 1, 1, 1, 1, 1, 1, 0]
    set_len = 52

    [extends within reserved room]
    reserve 40 = ()
    tables = (64, 0, 48)
    extend [1, 2, 3] = ()
    tables = (64, 0, 45)
    extend_refs [3, 4] = ()
    tables = (64, 0, 44)
    extend_many 5:2 6:1 = ()
    tables = (64, 0, 42)
    extend_refs_many 6:2 7:1 = ()
    tables = (64, 0, 41)

    [in the middle of a carry]
    insert_each [1..=25] = ()
    tables = (64, 16, 23)
    capacity = 48
    counts [0..=26] = [0, 1, 1, 1, 1, 1, 1, 1, 1, 1, 1, 1, 1, 1, 1, 1, 1, 1, 1, 1, 1, 1, 1, 1, 1, 1, 0]
    insert 25 = 1
    insert 24 = 1
    tables = (64, 16, 23)
    insert_many 20 0 = 1
    tables = (64, 16, 23)
    replace 23 = 1
    replace 1 = 1
    tables = (64, 16, 23)
    set 22 7 = ()
    tables = (64, 16, 23)
    or_insert_many 21 9 = 1
    tables = (64, 16, 23)
    set_len = 25
    len = 33
    equals [1..=25, 24, 25, 22, 22, 22, 22, 22, 22] = (true, true)

    [a carry is ended]
    insert_each [1..=25] = ()
    insert_many 25 2 = 1
    tables = (64, 16, 23)
    finish_carry = ()
    tables = (64, 0, 23)
    counts [1..=25] = [1, 1, 1, 1, 1, 1, 1, 1, 1, 1, 1, 1, 1, 1, 1, 1, 1, 1, 1, 1, 1, 1, 1, 1, 3]
    len = 27
    finish_carry = ()
    tables = (64, 0, 23)
    insert 26 = 0
    tables = (64, 0, 22)

    [a carry of three times sixteen slots is ended]
    extend [0..=47] = ()
    insert_many 48 3 = 0
    tables = (128, 48, 47)
    finish_carry = ()
    tables = (128, 0, 47)
    counts [0, 16, 32, 47, 48, 49] = [1, 1, 1, 1, 3, 0]
    set_len = 49
    len = 51

    [nothing waits]
    finish_carry = ()
    tables = (0, 0, 0)
    insert 1 = 0
    finish_carry = ()
    tables = (16, 0, 11)

    [takes out of both tables]
    insert_each [1..=25] = ()
    remove 24 = 1
    remove 1 = 1
    insert 1 = 0
    tables = (64, 0, 24)
    capacity = 48
    set_len = 24
    counts [1..=25] = [1, 1, 1, 1, 1, 1, 1, 1, 1, 1, 1, 1, 1, 1, 1, 1, 1, 1, 1, 1, 1, 1, 1, 0, 1]

    [takes out what waits, in each way]
    insert_each [1..=25] = ()
    take_all 17 = Some((17, 1))
    try_take 18 = Ok(18)
    remove_up_to 19 5 = 0
    set 20 0 = ()
    insert 26 = 0
    set_len = 22

    [retains]
    insert_each [1..=25] = ()
    retain_none = ()
    is_empty = true
    insert 3 = 0
    set_len = 1

    [retains the odd values in the middle of a carry]
    insert_each [1..=25] = ()
    tables = (64, 16, 23)
    retain_odd = ()
    waiting = 16
    set_len = 13
    len = 13
    insert 100 = 0
    waiting = 0
    set_len = 14

    [half of twelve is taken out, and the others are found]
    insert_each [1..=12] = ()
    remove 1 = 1
    remove 3 = 1
    remove 5 = 1
    remove 7 = 1
    remove 9 = 1
    remove 11 = 1
    counts [1..=12] = [0, 1, 0, 1, 0, 1, 0, 1, 0, 1, 0, 1]
    set_len = 6

    [clears]
    insert_each [1..=25] = ()
    clear = ()
    tables = (64, 0, 48)
    insert 17 = 0
    tables = (64, 0, 47)

    [room is spent, and the table keeps its size]
    insert_each [0..=11] = ()
    remove 0 = 1
    remove 1 = 1
    remove 2 = 1
    remove 3 = 1
    remove 4 = 1
    remove 5 = 1
    remove 6 = 1
    remove 7 = 1
    remove 8 = 1
    remove 9 = 1
    remove 10 = 1
    remove 11 = 1
    tables = (16, 0, 0)
    capacity = 0
    is_empty = true
    insert 100 = 0
    tables = (16, 0, 11)
    capacity = 12

    [a table that is nearly empty keeps its size]
    extend [0..=11] = ()
    remove 0 = 1
    remove 1 = 1
    remove 2 = 1
    remove 3 = 1
    remove 4 = 1
    remove 5 = 1
    tables = (16, 0, 0)
    insert 12 = 0
    tables = (16, 0, 5)
    counts [5..=13] = [0, 1, 1, 1, 1, 1, 1, 1, 0]

    [with seven of twelve it doubles]
    extend [0..=11] = ()
    remove 0 = 1
    remove 1 = 1
    remove 2 = 1
    remove 3 = 1
    remove 4 = 1
    tables = (16, 0, 0)
    insert 12 = 0
    tables = (32, 0, 16)
    set_len = 8

    [begins with room]
    with_capacity 0 = ()
    tables = (0, 0, 0)
    capacity = 0
    with_capacity 10 = ()
    tables = (16, 0, 12)
    capacity = 12
    with_capacity 12 = ()
    tables = (16, 0, 12)
    capacity = 12
    with_capacity 13 = ()
    tables = (32, 0, 24)
    capacity = 24
    with_capacity 100 = ()
    tables = (256, 0, 192)
    capacity = 192

    [reserves]
    reserve 13 = ()
    tables = (32, 0, 24)
    extend [0..=12] = ()
    tables = (32, 0, 11)
    reserve 11 = ()
    tables = (32, 0, 11)
    reserve 12 = ()
    tables = (64, 0, 35)
    reserve 18446744073709551615 = Memory
    reserve 432345564227567604 = Memory
    tables = (64, 0, 35)
    set_len = 13
    reserve 2000000 = ()
    tables = (4194304, 0, 3145715)

    [reserves in the middle of a carry]
    insert_each [1..=25] = ()
    reserve 23 = ()
    tables = (64, 16, 23)
    reserve 24 = ()
    tables = (128, 0, 71)
    counts [1..=25] = [1, 1, 1, 1, 1, 1, 1, 1, 1, 1, 1, 1, 1, 1, 1, 1, 1, 1, 1, 1, 1, 1, 1, 1, 1]

    [shrinks]
    with_capacity 100 = ()
    insert 1 = 0
    insert 2 = 0
    capacity = 192
    shrink_to_fit = ()
    tables = (16, 0, 10)
    capacity = 12
    clear = ()
    tables = (16, 0, 12)
    shrink_to_fit = ()
    tables = (0, 0, 0)
    capacity = 0

    [shrinks in the middle of a carry]
    insert_each [1..=25] = ()
    remove 25 = 1
    remove 24 = 1
    shrink_to_fit = ()
    tables = (32, 0, 1)
    set_len = 23
    counts [1..=25] = [1, 1, 1, 1, 1, 1, 1, 1, 1, 1, 1, 1, 1, 1, 1, 1, 1, 1, 1, 1, 1, 1, 1, 0, 0]

    [has nothing to give back]
    insert_each [1..=25] = ()
    shrink_to_fit = ()
    tables = (64, 16, 23)";

// Which values wait depends on the hash. If all hashes are 0, the values 17 to 24 wait, and the removal of a value raises the room only if the
// value waits.
const ONE_ROWS: &str = "
    [takes out of both tables]
    insert_each [1..=25] = ()
    remove 24 = 1
    tables = (64, 16, 24)
    remove 1 = 1
    tables = (64, 16, 24)
    insert 1 = 0
    tables = (64, 0, 24)
    capacity = 48
    set_len = 24
    counts [1..=25] = [1, 1, 1, 1, 1, 1, 1, 1, 1, 1, 1, 1, 1, 1, 1, 1, 1, 1, 1, 1, 1, 1, 1, 0, 1]

    [takes out what waits, in each way]
    insert_each [1..=25] = ()
    take_all 17 = Some((17, 1))
    tables = (64, 16, 24)
    try_take 18 = Ok(18)
    tables = (64, 16, 25)
    remove_up_to 19 5 = 0
    tables = (64, 16, 26)
    set 20 0 = ()
    tables = (64, 16, 27)
    insert 26 = 0
    tables = (64, 0, 26)
    set_len = 22

    [retains]
    insert_each [1..=25] = ()
    retain_none = ()
    is_empty = true
    tables = (64, 16, 31)
    capacity = 31
    insert 3 = 0
    set_len = 1";

// A bag in the middle of a carry.
const CARRYING: &str = "
    insert_each [1..=25] = ()
    tables = (64, 16, 23)";

// What calls on a clone return, if the bag that was cloned is in the middle of a carry.
const CLONE: &str = "
    tables = (64, 0, 23)
    set_len = 25
    counts [0..=26] = [0, 1, 1, 1, 1, 1, 1, 1, 1, 1, 1, 1, 1, 1, 1, 1, 1, 1, 1, 1, 1, 1, 1, 1, 1, 1, 0]";

// Checks that the clone of a bag in the middle of a carry has no waiting slot, and is equal to the bag.
fn is_cloned<S: BuildHasher + Default + Copy>(alloc: Global, state: S) -> Result<(), Fail> {
    let mut bag = HashBag::with_hasher(alloc, state);
    make_calls(alloc, &mut bag, CARRYING)?;
    let mut clone = clone_of(&bag)?;
    make_calls(alloc, &mut clone, CLONE)?;
    if clone == bag {
        return Ok(());
    }
    Err(Fail::new("a clone differs"))
}

// Numbers of values that room is made for at the start, with the slots and the capacity of the bag.
const BEGINNINGS: &str = "
    0 = (0, 0)
    10 = (16, 12)
    12 = (16, 12)
    13 = (32, 24)
    100 = (256, 192)";

// A bag with the default hash state.
fn with_capacity(alloc: Global, n: usize) -> Result<HashBag<u64>, BagError> {
    HashBag::with_capacity(alloc, n)
}

fn with_one_state(alloc: Global, n: usize) -> Result<HashBag<u64, OneState>, BagError> {
    HashBag::with_capacity_and_hasher(alloc, n, OneState)
}

// The slots and the capacity of a bag.
fn is_made<S: BuildHasher + Drop>(
    alloc: Global,
    bag: &HashBag<u64, S>,
    wanted: &str,
) -> Result<(), Fail> {
    let got = debug_of(alloc, &(bag.slots(), bag.capacity()))?;
    is_text(got.as_str(), wanted)
}

fn begins(alloc: Global, row: &str) -> Result<(), Fail> {
    let (n, wanted) = halves(row, " = ")?;
    let n = count(n)?;
    is_made(alloc, &with_capacity(alloc, n)?, wanted)?;
    is_made(alloc, &with_one_state(alloc, n)?, wanted)
}

#[test]
fn beginnings(rt: HostRuntime) -> Result<(), Fail> {
    for row in rows_of(rt.alloc(), BEGINNINGS)? {
        row.tested(begins(rt.alloc(), row.text))?;
    }
    Ok(())
}

#[test]
fn tables(rt: HostRuntime) -> Result<(), Fail> {
    make_rows_under_each(rt.alloc(), ROWS)
}

#[test]
fn tables_of_one_state(rt: HostRuntime) -> Result<(), Fail> {
    make_rows(rt.alloc(), OneState, ONE_ROWS)?;
    is_cloned(rt.alloc(), OneState)
}
