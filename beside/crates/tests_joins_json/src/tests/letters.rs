//! Bags of letters, with the results found by hand.
use hashbag::{BagError, FixedState, HashBag};
use std::alloc::Global;
use std::hash::BuildHasher;
use std::test::Fail;
use tests_kit::OneState;
use tests_kit::texts::is_text_of;

// The outer join of the letters of "hash" with those of "math".
const HASH_AND_MATH: &str =
    "[('a', 1, 1), ('h', 2, 1), ('s', 1, 0)] then [('m', 0, 1), ('t', 0, 1)]";

// Calls in turn on one bag: the call, a letter, how many of it, and the count that is returned.
const CALLS: [(&str, char, usize, usize); 9] = [
    ("insert_many", 'x', 2, 0),
    ("remove", 'x', 1, 2),
    ("remove", 'x', 1, 1),
    ("remove", 'x', 1, 0),
    ("insert_many", 'x', 10, 0),
    ("remove_up_to", 'x', 0, 10),
    ("remove_up_to", 'x', 3, 7),
    ("remove_up_to", 'x', 10, 0),
    ("remove_up_to", 'y', 1, 0),
];

// Each kind of call has a function with no contract, as in `calls` of `tests_kit`.

fn letters_of<S: BuildHasher + Default + Drop>(
    alloc: Global,
    word: &str,
) -> Result<HashBag<char, S>, BagError> {
    HashBag::from_iter(alloc, word.chars())
}

fn insert_many<S: BuildHasher + Drop>(
    bag: &mut HashBag<char, S>,
    letter: char,
    n: usize,
) -> Result<usize, BagError> {
    bag.insert_many(letter, n)
}

fn remove<S: BuildHasher + Drop>(bag: &mut HashBag<char, S>, letter: char) -> usize {
    bag.remove(&letter)
}

fn remove_up_to<S: BuildHasher + Drop>(
    bag: &mut HashBag<char, S>,
    letter: char,
    quantity: usize,
) -> usize {
    bag.remove_up_to(&letter, quantity)
}

// The items of an outer join up to the first letter that the first bag doesn't have, and those from there on, each in ascending order.
fn joined<S: BuildHasher + Drop>(
    alloc: Global,
    a: &HashBag<char, S>,
    b: &HashBag<char, S>,
) -> Result<String, Fail> {
    let mut first = Vec::new(alloc);
    let mut rest = Vec::new(alloc);
    for (letter, x, y) in a.outer_join(b) {
        if x > 0 && rest.is_empty() {
            first.push((*letter, x, y))?;
        } else {
            rest.push((*letter, x, y))?;
        }
    }
    first.sort_unstable();
    rest.sort_unstable();
    Ok(format!(in alloc; "{first:?} then {rest:?}")?)
}

fn letters_are_joined<S: BuildHasher + Default + Drop>(alloc: Global) -> Result<(), Fail> {
    let hash: HashBag<char, S> = letters_of(alloc, "hash")?;
    let math: HashBag<char, S> = letters_of(alloc, "math")?;
    let got = joined(alloc, &hash, &math)?;
    is_text_of("hash and math", got.as_str(), HASH_AND_MATH)
}

// Makes a call.
fn answer<S: BuildHasher + Drop>(
    bag: &mut HashBag<char, S>,
    call: &str,
    letter: char,
    n: usize,
) -> Result<usize, Fail> {
    match call {
        "insert_many" => Ok(insert_many(bag, letter, n)?),
        "remove" => Ok(remove(bag, letter)),
        "remove_up_to" => Ok(remove_up_to(bag, letter, n)),
        _ => Err(Fail::new(format_args!("no such call: {call}"))),
    }
}

fn are_answered<S: BuildHasher + Drop>(bag: &mut HashBag<char, S>) -> Result<(), Fail> {
    for (call, letter, n, wanted) in &CALLS {
        let got = answer(bag, call, *letter, *n)?;
        if got != *wanted {
            return Err(Fail::new(format_args!("{call} of {n} {letter}: {got}, not {wanted}")));
        }
    }
    Ok(())
}

fn letters_are_removed<S: BuildHasher + Default + Drop>(alloc: Global) -> Result<(), Fail> {
    are_answered::<S>(&mut HashBag::default_in(alloc))
}

#[test]
fn letters_of_words(rt: HostRuntime) -> Result<(), Fail> {
    letters_are_joined::<FixedState>(rt.alloc())?;
    letters_are_joined::<OneState>(rt.alloc())?;
    letters_are_removed::<FixedState>(rt.alloc())?;
    letters_are_removed::<OneState>(rt.alloc())
}
