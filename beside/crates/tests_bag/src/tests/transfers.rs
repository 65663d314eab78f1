//! The callers that move values between bags and lists, as rows of text: what no clause says of them is that they succeed. The results were
//! found by hand.
use hashbag::{FixedState, HashBag};
use hashbag_callers::hall::Hall;
use hashbag_callers::list_uses::{both_lists, most_common_value, take_each};
use hashbag_callers::text_uses::{count_texts, strike_out};
use hashbag_callers::transfers::{TransferError, transfer, transfer_clone};
use std::alloc::Global;
use std::hash::BuildHasher;
use std::test::Fail;
use tests_kit::calls::{bag_of, bag_of_counts, counts_of};
use tests_kit::texts::{count, counts, debug_of, halves, is_text, number, values};
use tests_kit::{OneState, ParityState, rows_of};

// Two bags; the limit of the second; the value and the number that are moved; the result, and the counts of 1 and 2 in each bag.
const TRANSFERS: &str = "
    1:5 2:1 | 1:1 | 9 | 1 3 | Ok(()) [2, 1] [4, 0]
    1:5 2:1 | 1:1 | 4 | 1 3 | Ok(()) [2, 1] [4, 0]
    1:5 2:1 | 1:1 | 3 | 1 3 | Err(Bag(TooMany)) [5, 1] [1, 0]
    1:5 2:1 | | 9 | 2 2 | Err(TooFew) [5, 1] [0, 0]
    1:5 2:1 | 2:3 | 9 | 2 1 | Ok(()) [5, 0] [0, 4]
    1:5 | 2:3 | 3 | 2 0 | Ok(()) [5, 0] [0, 3]
    1:5 | 2:3 | 3 | 2 1 | Err(TooFew) [5, 0] [0, 3]
    1:5 | | 5 | 1 5 | Ok(()) [0, 0] [5, 0]";

// One hall, which holds four guests.
const HALL: &str = "
    enter 7 3 = Ok(())
    enter 8 2 = Err(TooMany)
    enter 8 1 = Ok(())
    enter 9 0 = Ok(())
    leave 9 = false
    leave 7 = true
    enter 8 1 = Ok(())
    enter 8 1 = Err(TooMany)
    leave 8 = true
    leave 8 = true
    leave 8 = false
    leave 7 = true
    leave 7 = true
    leave 7 = false
    enter 6 5 = Err(TooMany)
    enter 6 4 = Ok(())";

// Two lists; the counts of 3, 5 and 9 in a bag of both; how many of the second are removed from a bag of the first, and the counts left.
const LISTS: &str = "
    [] | [] | [0, 0, 0] | 0 [0, 0, 0]
    [3, 5, 3] | [5, 3, 9] | [3, 2, 1] | 2 [1, 0, 0]
    [3, 5, 3] | [] | [2, 1, 0] | 0 [2, 1, 0]
    [] | [9, 9] | [0, 0, 2] | 0 [0, 0, 0]
    [3, 9, 3] | [3, 3, 5, 3] | [5, 1, 1] | 2 [0, 0, 1]";

// A list, and its most common value: the least if several occur equally often.
const MOST_COMMON: &str = "
    [] = None
    [5] = Some(5)
    [5, 3, 3] = Some(3)
    [9, 5, 9, 5, 3] = Some(5)
    [18446744073709551615, 0, 18446744073709551615] = Some(18446744073709551615)";

// Each kind of call has a function with no contract, as in `callers`.

fn moved<S: BuildHasher + Drop, S2: BuildHasher + Drop>(
    from: &mut HashBag<u64, S>,
    to: &mut HashBag<u64, S2>,
    value: u64,
    n: usize,
) -> Result<(), TransferError> {
    transfer(from, to, value, n)
}

fn moved_by_clone<S: BuildHasher + Drop, S2: BuildHasher + Drop>(
    from: &mut HashBag<u64, S>,
    to: &mut HashBag<u64, S2>,
    value: u64,
    n: usize,
) -> Result<(), TransferError> {
    transfer_clone(from, to, &value, n)
}

// Returns a bag of these counts.
fn bag_from<S: BuildHasher + Drop>(
    alloc: Global,
    state: S,
    text: &str,
) -> Result<HashBag<u64, S>, Fail> {
    let pairs = counts(alloc, text)?;
    bag_of_counts(alloc, state, pairs.as_slice())
}

// Returns the text of a transfer of a value and a number, which the row names.
fn moved_by<S: BuildHasher + Drop, S2: BuildHasher + Drop>(
    alloc: Global,
    from: &mut HashBag<u64, S>,
    to: &mut HashBag<u64, S2>,
    row: &str,
    by_clone: bool,
) -> Result<String, Fail> {
    let (value, n) = halves(row, " ")?;
    let (value, n) = (number(value)?, count(n)?);
    let result = if by_clone {
        moved_by_clone(from, to, value, n)
    } else {
        moved(from, to, value, n)
    };
    debug_of(alloc, &result)
}

// Returns the text of a transfer into a bag that gets a limit, and of what both have then.
fn transferred_to<S: BuildHasher + Drop, S2: BuildHasher + Drop>(
    alloc: Global,
    from: &mut HashBag<u64, S>,
    to: &mut HashBag<u64, S2>,
    row: &str,
    by_clone: bool,
) -> Result<String, Fail> {
    let (limit, rest) = halves(row, "|")?;
    to.set_limit(count(limit)?)?;
    let result = moved_by(alloc, from, to, rest, by_clone)?;
    let left = counts_of(alloc, from, &[1, 2])?;
    let there = counts_of(alloc, to, &[1, 2])?;
    Ok(format!(in alloc; "{result} {left} {there}")?)
}

// Returns the text of a transfer between bags of these counts, the first under a state, and of what both have then.
fn transferred<S: BuildHasher + Drop>(
    alloc: Global,
    state: S,
    row: &str,
    by_clone: bool,
) -> Result<String, Fail> {
    let (first, rest) = halves(row, "|")?;
    let (second, rest) = halves(rest, "|")?;
    let mut from = bag_from(alloc, state, first)?;
    let mut to = bag_from(alloc, FixedState::new(), second)?;
    transferred_to(alloc, &mut from, &mut to, rest, by_clone)
}

// The transfer of a row, by the value and by a clone of it.
fn transfers<S: BuildHasher + Copy + Drop>(alloc: Global, state: S, row: &str) -> Result<(), Fail> {
    let Some((call, want)) = row.rsplit_once(" | ") else {
        return Err(Fail::new("no result"));
    };
    is_text(transferred(alloc, state, call, false)?.as_str(), want)?;
    is_text(transferred(alloc, state, call, true)?.as_str(), want)
}

// The transfers under a state of the first bag.
fn transfers_under<S: BuildHasher + Copy + Drop>(alloc: Global, state: S) -> Result<(), Fail> {
    for row in rows_of(alloc, TRANSFERS)? {
        row.tested(transfers(alloc, state, row.text))?;
    }
    Ok(())
}

// Returns the text of what a step of the hall returns.
fn stepped(alloc: Global, hall: &mut Hall, step: &str) -> Result<String, Fail> {
    let (verb, rest) = halves(step, " ")?;
    if verb == "leave" {
        return debug_of(alloc, &hall.leave(number(rest)?));
    }
    let (group, n) = halves(rest, " ")?;
    debug_of(alloc, &hall.enter(number(group)?, count(n)?))
}

fn step(alloc: Global, hall: &mut Hall, row: &str) -> Result<(), Fail> {
    let (call, want) = halves(row, " = ")?;
    is_text(stepped(alloc, hall, call)?.as_str(), want)
}

// The bag of two lists, as its counts of 3, 5 and 9.
fn of_both(alloc: Global, first: &str, second: &str) -> Result<String, Fail> {
    let bag = both_lists(alloc, values(alloc, first)?, values(alloc, second)?)?;
    counts_of(alloc, &bag, &[3, 5, 9])
}

// How many of a list are removed from a bag of the first, and its counts of 3, 5 and 9 then.
fn taken(alloc: Global, first: &str, second: &str) -> Result<String, Fail> {
    let mut bag = bag_of(alloc, ParityState, values(alloc, first)?.as_slice())?;
    let removed = take_each(&mut bag, values(alloc, second)?.as_slice());
    let left = counts_of(alloc, &bag, &[3, 5, 9])?;
    Ok(format!(in alloc; "{removed} {left}")?)
}

// Removes n of a word from a bag of five words, and returns how many are left of it, and of all.
fn struck_out(alloc: Global, word: &str, n: usize) -> Result<(usize, usize), Fail> {
    let mut bag = count_texts(alloc, &["the", "cat", "the", "thé", "the"])?;
    let left = strike_out(&mut bag, word, n);
    Ok((left, bag.len()))
}

#[test]
fn values_are_transferred(rt: HostRuntime) -> Result<(), Fail> {
    let alloc = rt.alloc();
    transfers_under(alloc, FixedState::new())?;
    transfers_under(alloc, OneState)?;
    transfers_under(alloc, ParityState)
}

#[test]
fn guests_enter_and_leave(rt: HostRuntime) -> Result<(), Fail> {
    let alloc = rt.alloc();
    let mut hall = Hall {
        guests: HashBag::with_limit(alloc, FixedState::new(), 4),
    };
    for row in rows_of(alloc, HALL)? {
        row.tested(step(alloc, &mut hall, row.text))?;
    }
    Ok(())
}

fn in_and_out(alloc: Global, row: &str) -> Result<(), Fail> {
    let (first, rest) = halves(row, "|")?;
    let (second, rest) = halves(rest, "|")?;
    let (both, left) = halves(rest, "|")?;
    is_text(of_both(alloc, first, second)?.as_str(), both)?;
    is_text(taken(alloc, first, second)?.as_str(), left)
}

#[test]
fn lists_go_in_and_out(rt: HostRuntime) -> Result<(), Fail> {
    let alloc = rt.alloc();
    for row in rows_of(alloc, LISTS)? {
        row.tested(in_and_out(alloc, row.text))?;
    }
    Ok(())
}

fn commonest_of(alloc: Global, row: &str) -> Result<(), Fail> {
    let (list, want) = halves(row, " = ")?;
    let found = most_common_value(alloc, values(alloc, list)?)?;
    is_text(debug_of(alloc, &found)?.as_str(), want)
}

#[test]
fn commonest_values(rt: HostRuntime) -> Result<(), Fail> {
    let alloc = rt.alloc();
    for row in rows_of(alloc, MOST_COMMON)? {
        row.tested(commonest_of(alloc, row.text))?;
    }
    Ok(())
}

#[test]
fn words_are_struck_out(rt: HostRuntime) -> Result<(), Fail> {
    let alloc = rt.alloc();
    assert_eq!(rt; struck_out(alloc, "the", 2)?, (1, 3));
    assert_eq!(rt; struck_out(alloc, "the", 4)?, (0, 2));
    assert_eq!(rt; struck_out(alloc, "th", 1)?, (0, 5));
    assert_eq!(rt; struck_out(alloc, "thé", 0)?, (1, 5));
    Ok(())
}
