//! In which slots values are, worked out by hand: every value has one hash, so that its probe begins where all others begin.
use crate::constant::Constant;
use crate::tests::held::Held;
use crate::tests::pair::Pair;
use crate::tests::rows::{Called, debug_of, make_rows};
use hashbag_slots::slots::Slots;
use std::alloc::{AllocError, Global};
use std::test::Fail;

/// Tables of numbers that all have one hash.
pub type Numbers = Held<u64, Constant>;

// Calls on a table. `new 16 3` puts a table of 16 slots, whose values have the hash 3, in the place of the one before. `fill 4` places the
// values from 1 to 4, each as often as it says, and returns how many could be placed. `take_each 1 3` takes out those from 1 to 3, and
// returns how many were there as often as they say. `slots` returns how many slots there are, and how many are Live and Removed.
const ROWS: &str = "\
    [no slots]
    new 0 0 = ()
    slots = (0, 0, 0)
    place 1 1 = false
    find 1 = None

    [one after another]
    new 16 0 = ()
    fill 3 = 3
    slots = (16, 3, 0)
    find 1 = Some(0)
    find 2 = Some(1)
    find 3 = Some(2)
    find 4 = None

    [the last slot is followed by slot 0; the hash has its top seven bits set, and so the greatest mark]
    new 16 18446744073709551615 = ()
    fill 3 = 3
    find 1 = Some(15)
    find 2 = Some(0)
    find 3 = Some(1)
    find 4 = None

    [a probe through a table of Live slots alone ends where it began]
    new 16 14 = ()
    fill 16 = 16
    slots = (16, 16, 0)
    find 1 = Some(14)
    find 2 = Some(15)
    find 3 = Some(0)
    find 16 = Some(13)
    find 17 = None
    place 17 1 = false
    take 16 = Some((16, 16))
    find 15 = Some(12)
    find 16 = None
    place 17 1 = true
    find 17 = Some(13)
    slots = (16, 16, 0)

    [values behind Removed slots are found, and a new one goes into the first of them]
    new 16 15 = ()
    fill 4 = 4
    take 1 = Some((1, 1))
    take 3 = Some((3, 3))
    slots = (16, 2, 2)
    find 1 = None
    find 2 = Some(0)
    find 3 = None
    find 4 = Some(2)
    place 5 1 = true
    slots = (16, 3, 1)
    find 5 = Some(15)
    find 2 = Some(0)
    find 4 = Some(2)

    [a probe shows a value, or the first slot on it that is not Live, a Removed one too]
    new 16 0 = ()
    fill 4 = 4
    take 1 = Some((1, 1))
    take 3 = Some((3, 3))
    seek 1 = Absent(0)
    seek 2 = Found(1)
    seek 3 = Absent(0)
    seek 4 = Found(3)
    seek 9 = Absent(0)
    place_sought 9 = Some(true)
    seek 8 = Absent(2)
    seek 9 = Found(0)
    place_sought 9 = Some(false)
    slots = (16, 3, 1)

    [the path goes past the last slot, and past the guards, on to slot 0]
    new 16 15 = ()
    fill 3 = 3
    seek 1 = Found(15)
    seek 3 = Found(1)
    seek 4 = Absent(2)
    place_sought 4 = Some(true)
    slots = (16, 4, 0)

    [the first 16 slots of the path are the last ones]
    new 32 16 = ()
    fill 15 = 15
    seek 15 = Found(30)
    seek 16 = Absent(31)
    place_sought 16 = Some(true)
    seek 16 = Found(31)
    seek 17 = Absent(0)

    [without an Empty slot a probe reads them all, and shows the first that is not Live]
    new 16 0 = ()
    fill 16 = 16
    seek 1 = Found(0)
    seek 17 = Full
    place_sought 17 = None
    take 7 = Some((7, 7))
    seek 7 = Absent(6)
    seek 16 = Found(15)
    seek 17 = Absent(6)
    place_sought 17 = Some(true)
    find 17 = Some(6)
    find 16 = Some(15)

    [a probe goes past Removed slots to the values after them, and ends at an Empty one]
    new 64 2 = ()
    fill 40 = 40
    take_each 1 30 = 30
    take_each 31 40 = 10

    [twelve, and six of them removed]
    new 16 0 = ()
    fill 12 = 12
    take 1 = Some((1, 1))
    take 3 = Some((3, 3))
    take 5 = Some((5, 5))
    take 7 = Some((7, 7))
    take 9 = Some((9, 9))
    take 11 = Some((11, 11))
    slots = (16, 6, 6)
    count 2 = 2
    count 4 = 4
    count 6 = 6
    count 8 = 8
    count 10 = 10
    count 12 = 12
    find 1 = None
    find 3 = None
    find 5 = None
    find 7 = None
    find 9 = None
    find 11 = None

    [counts]
    new 16 0 = ()
    fill 3 = 3
    add 2 5 = 2
    count 2 = 7
    add 2 18446744073709551608 = 7
    count 2 = 18446744073709551615
    set 3 9 = 9
    count 1 = 1
    set 4 9 = 0

    [cleared]
    new 16 15 = ()
    fill 3 = 3
    take 1 = Some((1, 1))
    clear = ()
    slots = (16, 0, 0)
    find 2 = None
    find 3 = None

    [filled, and cleared]
    new 16 15 = ()
    fill 16 = 16
    place 17 1 = false
    take 3 = Some((3, 3))
    clear = ()
    slots = (16, 0, 0)";

// Calls on two tables. `carry 2` carries two slots, and returns how many were carried in all; `find` returns the places of a value in the
// newer and in the older table. Values behind Moved and Removed slots are found in the older table until they are carried.
const PAST_MOVED: &str = "\
    carry 1 = 1
    find 1 = (Some(0), None)
    find 2 = (None, None)
    find 3 = (None, Some(2))
    find 4 = (None, Some(3))
    carry 2 = 3
    find 1 = (Some(0), None)
    find 3 = (Some(1), None)
    find 4 = (None, Some(3))
    older = (16, 1, 1)
    carry 20 = 16
    find 1 = (Some(0), None)
    find 3 = (Some(1), None)
    find 4 = (Some(2), None)
    older = (16, 0, 1)
    newer = (32, 3, 0)";

// A carry to a table of as many slots goes past the last slot too, in both.
const PAST_THE_LAST_SLOT: &str = "\
    carry 1 = 1
    find 1 = (None, Some(15))
    find 2 = (Some(15), None)
    find 3 = (None, Some(1))
    carry 15 = 16
    find 1 = (Some(1), None)
    find 2 = (Some(15), None)
    find 3 = (Some(0), None)";

// A table of this many slots, all Empty.
fn table_of(alloc: Global, slots: u64, hash: u64) -> Option<Numbers> {
    let state = Constant { hash };
    match slots {
        0 => Held::none(alloc, state).ok(),
        16 => Held::new(alloc, state, 4).ok(),
        32 => Held::new(alloc, state, 5).ok(),
        64 => Held::new(alloc, state, 6).ok(),
        _ => None,
    }
}

// Places the values from 1 to `last`, each as often as it says, and returns how many could be placed.
fn fill(table: &mut Numbers, last: u64) -> u64 {
    let mut placed = 0u64;
    for value in 1..=last {
        if table.place(value, value as usize) {
            placed = placed.saturating_add(1);
        }
    }
    placed
}

// Takes these values out, and returns how many were there as often as they say.
fn take_each(table: &mut Numbers, first: u64, last: u64) -> u64 {
    let mut taken = 0u64;
    for value in first..=last {
        if table.take(&value) == Some((value, value as usize)) {
            taken = taken.saturating_add(1);
        }
    }
    taken
}

/// A table of 16 slots with the values from 1 on, each as often as it says. All have the same hash.
pub fn numbers(alloc: Global, hash: u64, many: u64) -> Result<Numbers, AllocError> {
    let mut table = Held::new(alloc, Constant { hash }, 4)?;
    let _ = fill(&mut table, many);
    Ok(table)
}

// How many slots there are, and how many are Live and Removed.
fn slots_of(slots: &Slots<u64>) -> (usize, usize, usize) {
    (slots.slots(), slots.live(), slots.removed())
}

// Returns the text of what a call with nothing returns.
fn with_nothing(alloc: Global, table: &mut Numbers, verb: &str) -> Option<String> {
    match verb {
        "slots" => debug_of(alloc, &slots_of(&table.slots)),
        "clear" => debug_of(alloc, &table.clear()),
        _ => None,
    }
}

// Returns the text of what a call with one number returns.
fn with_value(alloc: Global, table: &mut Numbers, verb: &str, value: u64) -> Option<String> {
    match verb {
        "fill" => debug_of(alloc, &fill(table, value)),
        "find" => debug_of(alloc, &table.find(&value)),
        "seek" => debug_of(alloc, &table.seek(&value)),
        "place_sought" => debug_of(alloc, &table.place_sought(value, 1)),
        "take" => debug_of(alloc, &table.take(&value)),
        "count" => debug_of(alloc, &table.count(&value)),
        _ => None,
    }
}

// Returns the text of what a call with two numbers returns.
fn with_two(
    alloc: Global,
    table: &mut Numbers,
    verb: &str,
    value: u64,
    n: usize,
) -> Option<String> {
    match verb {
        "new" => {
            *table = table_of(alloc, value, n as u64)?;
            debug_of(alloc, &())
        }
        "place" => debug_of(alloc, &table.place(value, n)),
        "take_each" => debug_of(alloc, &take_each(table, value, n as u64)),
        "add" => debug_of(alloc, &table.add(&value, n)),
        "set" => debug_of(alloc, &table.set(&value, n)),
        _ => None,
    }
}

impl Called for Held<u64, Constant> {
    fn answer(&mut self, alloc: Global, call: &str) -> Option<String> {
        let Some((verb, rest)) = call.split_once(' ') else {
            return with_nothing(alloc, self, call);
        };
        match rest.split_once(' ') {
            Some((value, n)) => {
                with_two(alloc, self, verb, value.parse().ok()?, n.parse().ok()?)
            }
            None => with_value(alloc, self, verb, rest.parse().ok()?),
        }
    }
}

impl Called for Pair<u64, Constant> {
    fn answer(&mut self, alloc: Global, call: &str) -> Option<String> {
        match call.split_once(' ') {
            Some(("carry", many)) => debug_of(alloc, &self.carry(many.parse().ok()?)),
            Some((_, value)) => debug_of(alloc, &self.find(&value.parse().ok()?)),
            None if call == "older" => debug_of(alloc, &slots_of(&self.older)),
            None => debug_of(alloc, &slots_of(&self.newer)),
        }
    }
}

#[test]
fn places(rt: HostRuntime) -> Result<(), Fail> {
    let mut table = numbers(rt.alloc(), 0, 0)?;
    make_rows(rt.alloc(), &mut table, ROWS)
}

#[test]
fn past_moved(rt: HostRuntime) -> Result<(), Fail> {
    let mut table = numbers(rt.alloc(), 0, 4)?;
    assert_eq!(rt; table.take(&2), Some((2, 2)));
    let mut pair = Pair::new(rt.alloc(), table, 5)?;
    make_rows(rt.alloc(), &mut pair, PAST_MOVED)
}

#[test]
fn carried_past_the_last_slot(rt: HostRuntime) -> Result<(), Fail> {
    let table = numbers(rt.alloc(), 15, 3)?;
    let mut pair = Pair::new(rt.alloc(), table, 4)?;
    make_rows(rt.alloc(), &mut pair, PAST_THE_LAST_SLOT)
}
