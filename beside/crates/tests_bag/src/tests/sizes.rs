//! Values of no size, and of two hundred bytes.
use hashbag::{BagError, FixedState, HashBag};
use std::alloc::Global;
use std::hash::{BuildHasher, Hash};
use std::test::Fail;
use tests_kit::OneState;
use tests_kit::calls::insert;
use tests_kit::texts::is_text_of;

// Values made of numbers.
trait Made: Eq + Hash + Copy + Drop {
    fn of(number: u64) -> Self;

    fn clone_of<S: BuildHasher + Copy>(
        bag: &HashBag<Self, S>,
    ) -> Result<HashBag<Self, S>, BagError>;
}

// There is one value of this type.
#[derive(Clone, Copy, PartialEq, Eq, Hash)]
struct Nothing;

impl Made for Nothing {
    fn of(_number: u64) -> Nothing {
        Nothing
    }

    fn clone_of<S: BuildHasher + Copy>(
        bag: &HashBag<Nothing, S>,
    ) -> Result<HashBag<Nothing, S>, BagError> {
        bag.clone()
    }
}

// Twenty-five words. Only the last one differs from value to value.
#[derive(Clone, Copy, PartialEq, Eq, Hash)]
struct Wide {
    words: [u64; 25],
}

impl Made for Wide {
    fn of(number: u64) -> Wide {
        let mut words = [7; 25];
        words[24] = number;
        Wide { words }
    }

    fn clone_of<S: BuildHasher + Copy>(
        bag: &HashBag<Wide, S>,
    ) -> Result<HashBag<Wide, S>, BagError> {
        bag.clone()
    }
}

fn remove<T: Made, S: BuildHasher + Drop>(bag: &mut HashBag<T, S>, number: u64) -> usize {
    bag.remove(&T::of(number))
}

fn taken<T: Made, S: BuildHasher + Drop>(bag: &mut HashBag<T, S>, number: u64) -> usize {
    match bag.take_all(&T::of(number)) {
        Some((_, count)) => count,
        None => 0,
    }
}

// How many of the numbers from 1 to 40 are found.
fn found<T: Made, S: BuildHasher + Drop>(bag: &HashBag<T, S>) -> usize {
    let mut found = 0usize;
    for number in 1..=40 {
        if bag.contains(&T::of(number)) > 0 {
            found = found.saturating_add(1);
        }
    }
    found
}

// Forty values, and the tables that they are in.
fn filled<T: Made, S: BuildHasher + Drop>(
    alloc: Global,
    bag: &mut HashBag<T, S>,
) -> Result<String, Fail> {
    for number in 1..=40 {
        insert(bag, T::of(number))?;
    }
    let found = found(bag);
    let (len, set_len) = (bag.len(), bag.set_len());
    let tables = (bag.slots(), bag.waiting(), bag.room());
    Ok(format!(in alloc; "{len} of {set_len} in {tables:?}, {found} found")?)
}

// What is left after a removal, a take and an insertion: the numbers of items of the walks, and of a clone.
fn walked<T: Made, S: BuildHasher + Copy>(
    bag: &HashBag<T, S>,
) -> Result<(usize, usize, usize, usize), BagError> {
    let copy = T::clone_of(bag)?;
    Ok((
        bag.iter().count(),
        bag.set_iter().count(),
        found(&copy),
        copy.into_iter().count(),
    ))
}

// Returns what a bag has after each call.
fn sizes_of<T: Made, S: BuildHasher + Copy>(
    alloc: Global,
    bag: &mut HashBag<T, S>,
) -> Result<String, Fail> {
    let first = filled(alloc, bag)?;
    let (removed, taken) = (remove(bag, 7), taken(bag, 8));
    insert(bag, T::of(9))?;
    let walked = walked(bag)?;
    let drained = bag.drain().count();
    Ok(format!(in alloc;
        "{first}, removed {removed}, taken {taken}, walked {walked:?}, drained {drained}"
    )?)
}

fn sized<T: Made, S: BuildHasher + Copy>(
    alloc: Global,
    state: S,
    wanted: &str,
) -> Result<(), Fail> {
    let mut bag: HashBag<T, S> = HashBag::with_hasher(alloc, state);
    let got = sizes_of(alloc, &mut bag)?;
    is_text_of("sizes", got.as_str(), wanted)
}

const OF_NOTHING: &str =
    "40 of 1 in (16, 0, 11), 40 found, removed 40, taken 39, walked (1, 1, 40, 1), drained 1";

const OF_WIDE: &str =
    "40 of 40 in (64, 0, 8), 40 found, removed 1, taken 1, walked (39, 38, 38, 38), drained 38";

#[test]
fn of_no_size_and_of_many_bytes(rt: HostRuntime) -> Result<(), Fail> {
    let alloc = rt.alloc();
    assert_eq!(rt; (size_of::<Nothing>(), size_of::<Wide>()), (0, 200));
    sized::<Nothing, _>(alloc, FixedState::new(), OF_NOTHING)?;
    sized::<Nothing, _>(alloc, OneState, OF_NOTHING)?;
    sized::<Wide, _>(alloc, FixedState::new(), OF_WIDE)?;
    sized::<Wide, _>(alloc, OneState, OF_WIDE)
}
