//! The callers to copy, as rows of text: what no clause says of them is that they succeed, and what they return on bags, found by hand.
use hashbag::script::Reply;
use hashbag::{BagError, FixedState, HashBag};
use hashbag_callers::deliveries::{greatest_surplus, greatest_surplus_by_fold, is_complete};
use hashbag_callers::ledger::{
    deliver, keep_at_most, keep_one, list, recount, sell, sell_out, take_was_last,
};
use hashbag_callers::run_uses::insert_and_count;
use hashbag_callers::words::{count_words, equal_in_any_order, insert_each, two_words};
use std::alloc::Global;
use std::hash::BuildHasher;
use std::test::Fail;
use tests_kit::texts::{count, counts, debug_of, halves, is_text, is_text_of, number, values};
use tests_kit::{IdentityState, OneState, ParityState, calls, rows_of};

// One bag throughout. What is no caller's name is a call on the bag.
const ROWS: &str = "
    deliver 7 5 = Ok(())
    sell 7 6 = false
    sell 8 1 = false
    sell 8 0 = true
    counts [7, 8] = [5, 0]
    sell 7 3 = true
    deliver 8 1 = Ok(())
    counts [7, 8] = [2, 1]
    deliver 7 18446744073709551613 = Err(TooMany)
    len = 3
    sell_out 7 = Some(7)
    sell_out 7 = None
    len = 1
    deliver 7 2 = Ok(())
    take_was_last 7 = false
    take_was_last 7 = true
    take_was_last 7 = false
    len = 1
    list 8 = Ok(1)
    list 9 = Ok(1)
    deliver 9 4 = Ok(())
    list 9 = Ok(5)
    recount 9 7 = Ok(())
    recount 3 7 = Ok(())
    counts [3, 8, 9] = [0, 1, 7]
    recount 9 18446744073709551615 = Err(TooMany)
    counts [3, 8, 9] = [0, 1, 7]
    keep_one 9 = Ok(7)
    keep_one 3 = Ok(0)
    recount 3 0 = Ok(())
    counts [3, 8, 9] = [0, 1, 1]
    recount 9 5 = Ok(())
    keep_at_most 2 = ()
    counts [8, 9] = [1, 2]
    keep_at_most 0 = ()
    len = 0
    add_words [3, 5, 3] = Ok(())
    counts [3, 5, 8] = [2, 1, 0]
    add_words [] = Ok(())
    len = 3
    insert_and_count 4 = Ok([Count(0), Count(1)])
    insert_and_count 3 = Ok([Count(2), Count(3)])
    deliver 6 18446744073709551610 = Ok(())
    insert_and_count 3 = Err(TooMany)
    add_words [1] = Err(TooMany)
    counts [1, 3, 6] = [0, 3, 18446744073709551610]";

// What was ordered, what was delivered, and whether that is complete, with the greatest surplus by a loop and by a fold.
const DELIVERIES: &str = "
    | | (true, 0, 0)
    1:2 2:4 | | (false, 0, 0)
    | 1:2 2:4 | (true, 4, 4)
    1:2 2:4 | 1:2 2:4 | (true, 0, 0)
    1:2 2:4 | 2:9 1:2 3:4 | (true, 5, 5)
    1:2 2:4 | 1:1 2:9 3:8 | (false, 8, 8)";

// Words, how often the first of them occurs, and how many there are.
const WORDS: &str = "
    [3, 5, 3, 8, 3] = (3, 5)
    [0] = (1, 1)
    [18446744073709551615, 0, 18446744073709551615] = (2, 3)";

// Insertions, whose pairs are made in this order and in that of their values: the two bags are equal.
const INSERTIONS: &str = "
    9:1 2:3 9:0 1:4 2:1
    1:18446744073709551614 0:1
    1:0";

// Each kind of call has a function with no contract, as in `calls` of `tests_kit`.

fn sold<S: BuildHasher + Drop>(stock: &mut HashBag<u64, S>, article: u64, n: usize) -> bool {
    sell(stock, &article, n)
}

fn sold_out<S: BuildHasher + Drop>(stock: &mut HashBag<u64, S>, article: u64) -> Option<u64> {
    sell_out(stock, &article)
}

fn was_last<S: BuildHasher + Drop>(stock: &mut HashBag<u64, S>, article: u64) -> bool {
    take_was_last(stock, &article)
}

fn kept<S: BuildHasher + Drop>(stock: &mut HashBag<u64, S>, most: usize) {
    keep_at_most(stock, most);
}

fn words_added<S: BuildHasher + Drop>(
    bag: &mut HashBag<u64, S>,
    words: &[u64],
) -> Result<(), BagError> {
    insert_each(bag, words)
}

// The caller leaves it to its own to test the total.
fn replies<S: BuildHasher + Drop>(
    alloc: Global,
    bag: &mut HashBag<u64, S>,
    value: u64,
) -> Result<Vec<Reply<u64>>, BagError> {
    if bag.len() == bag.limit() {
        return Err(BagError::TooMany);
    }
    insert_and_count(alloc, bag, value)
}

// Returns the text of what a caller with one number returns.
fn with_number<S: BuildHasher + Default + Drop>(
    alloc: Global,
    bag: &mut HashBag<u64, S>,
    call: &str,
) -> Result<String, Fail> {
    let (verb, word) = halves(call, " ")?;
    match verb {
        "sell_out" => debug_of(alloc, &sold_out(bag, number(word)?)),
        "take_was_last" => debug_of(alloc, &was_last(bag, number(word)?)),
        "list" => debug_of(alloc, &list(bag, number(word)?)),
        "keep_one" => debug_of(alloc, &keep_one(bag, number(word)?)),
        "keep_at_most" => debug_of(alloc, &kept(bag, count(word)?)),
        "insert_and_count" => debug_of(alloc, &replies(alloc, bag, number(word)?)),
        "add_words" => debug_of(alloc, &words_added(bag, values(alloc, word)?.as_slice())),
        _ => calls::answer(alloc, bag, call),
    }
}

// Returns the text of what a caller with an article and a number of it returns.
fn with_count<S: BuildHasher + Default + Drop>(
    alloc: Global,
    stock: &mut HashBag<u64, S>,
    verb: &str,
    rest: &str,
) -> Result<String, Fail> {
    let (article, n) = halves(rest, " ")?;
    match verb {
        "deliver" => debug_of(alloc, &deliver(stock, number(article)?, count(n)?)),
        "recount" => debug_of(alloc, &recount(stock, number(article)?, count(n)?)),
        _ => debug_of(alloc, &sold(stock, number(article)?, count(n)?)),
    }
}

fn answer<S: BuildHasher + Default + Drop>(
    alloc: Global,
    bag: &mut HashBag<u64, S>,
    call: &str,
) -> Result<String, Fail> {
    match call.split_once(' ') {
        Some(("deliver", rest)) => with_count(alloc, bag, "deliver", rest),
        Some(("sell", rest)) => with_count(alloc, bag, "sell", rest),
        Some(("recount", rest)) => with_count(alloc, bag, "recount", rest),
        Some(_) => with_number(alloc, bag, call),
        None => calls::answer(alloc, bag, call),
    }
}

// Returns a bag of these articles, each as often as its number.
fn stock_of<S: BuildHasher + Default + Drop>(
    alloc: Global,
    articles: &str,
) -> Result<HashBag<u64, S>, Fail> {
    calls::bag_of_counts(alloc, S::default(), counts(alloc, articles)?.as_slice())
}

// What two deliveries are matched as.
fn matched<S: BuildHasher + Drop, S2: BuildHasher + Drop>(
    ordered: &HashBag<u64, S>,
    delivered: &HashBag<u64, S2>,
) -> (bool, usize, usize) {
    let complete = is_complete(ordered, delivered);
    let surplus = greatest_surplus(delivered, ordered);
    (
        complete,
        surplus,
        greatest_surplus_by_fold(delivered, ordered),
    )
}

// The match of two deliveries that are written as articles with their numbers.
fn match_of<S: BuildHasher + Default + Drop>(
    alloc: Global,
    ordered: &str,
    delivered: &str,
) -> Result<(bool, usize, usize), Fail> {
    let ordered: HashBag<u64, S> = stock_of(alloc, ordered)?;
    let delivered: HashBag<u64> = stock_of(alloc, delivered)?;
    Ok(matched(&ordered, &delivered))
}

fn matches_as<S: BuildHasher + Default + Drop>(alloc: Global, row: &str) -> Result<(), Fail> {
    let (ordered, rest) = halves(row, "|")?;
    let (delivered, want) = halves(rest, "|")?;
    let got = match_of::<S>(alloc, ordered, delivered)?;
    is_text(debug_of(alloc, &got)?.as_str(), want)
}

fn is_answered<S: BuildHasher + Default + Drop>(
    alloc: Global,
    bag: &mut HashBag<u64, S>,
    row: &str,
) -> Result<(), Fail> {
    let (call, want) = halves(row, " = ")?;
    let got = answer(alloc, bag, call)?;
    is_text(got.as_str(), want)
}

fn are_answered<S: BuildHasher + Default + Drop>(
    alloc: Global,
    bag: &mut HashBag<u64, S>,
) -> Result<(), Fail> {
    for row in rows_of(alloc, ROWS)? {
        row.tested(is_answered(alloc, bag, row.text))?;
    }
    Ok(())
}

fn are_matched<S: BuildHasher + Default + Drop>(alloc: Global) -> Result<(), Fail> {
    for row in rows_of(alloc, DELIVERIES)? {
        row.tested(matches_as::<S>(alloc, row.text))?;
    }
    Ok(())
}

// The callers under a state.
fn callers_under<S: BuildHasher + Default + Drop>(alloc: Global, state: S) -> Result<(), Fail> {
    are_answered(alloc, &mut HashBag::with_hasher(alloc, state))?;
    are_matched::<S>(alloc)
}

// The bag of these words: how often the first of them occurs, and how many there are.
fn first_and_all(alloc: Global, words: Vec<u64>) -> Result<(usize, usize), BagError> {
    let first = words.first().map_or(0, |word| *word);
    let bag = count_words(alloc, words)?;
    Ok((bag.contains(&first), bag.len()))
}

fn are_counted(alloc: Global, row: &str) -> Result<(), Fail> {
    let (words, want) = halves(row, " = ")?;
    let got = first_and_all(alloc, values(alloc, words)?)?;
    is_text(debug_of(alloc, &got)?.as_str(), want)
}

fn number_of_two_words(alloc: Global) -> Result<usize, BagError> {
    Ok(two_words(alloc)?.len())
}

// Whether a bag of the pairs equals one of the pairs in the order of their values.
fn equal_when_sorted(alloc: Global, pairs: &[(u64, usize)]) -> Result<bool, BagError> {
    let first = Vec::from_slice(alloc, pairs)?;
    let mut second = Vec::from_slice(alloc, pairs)?;
    second.sort()?;
    equal_in_any_order(alloc, first, second)
}

fn are_equal_when_sorted(alloc: Global, row: &str) -> Result<(), Fail> {
    let equal = equal_when_sorted(alloc, counts(alloc, row)?.as_slice())?;
    is_text(debug_of(alloc, &equal)?.as_str(), "true")
}

#[test]
fn callers_of_fixed_state(rt: HostRuntime) -> Result<(), Fail> {
    callers_under(rt.alloc(), FixedState::new())
}

#[test]
fn callers_of_one_state(rt: HostRuntime) -> Result<(), Fail> {
    callers_under(rt.alloc(), OneState)
}

#[test]
fn callers_of_parity_state(rt: HostRuntime) -> Result<(), Fail> {
    callers_under(rt.alloc(), ParityState)
}

#[test]
fn callers_of_identity_state(rt: HostRuntime) -> Result<(), Fail> {
    callers_under(rt.alloc(), IdentityState)
}

#[test]
fn words_are_counted(rt: HostRuntime) -> Result<(), Fail> {
    let alloc = rt.alloc();
    let words = debug_of(alloc, &number_of_two_words(alloc))?;
    is_text_of("two words", words.as_str(), "Ok(2)")?;
    for row in rows_of(alloc, WORDS)? {
        row.tested(are_counted(alloc, row.text))?;
    }
    Ok(())
}

#[test]
fn insertions_in_any_order(rt: HostRuntime) -> Result<(), Fail> {
    let alloc = rt.alloc();
    for row in rows_of(alloc, INSERTIONS)? {
        row.tested(are_equal_when_sorted(alloc, row.text))?;
    }
    Ok(())
}
