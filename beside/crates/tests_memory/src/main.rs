//! Makes calls that allocate, of which the script `tests/crates/refused_memory.sh` lets one request fail. It says whether a call returned that error,
//! and whether all is then as it must be.
//!
//! Standard input is `strict`, `lenient` or `all`, or a single call such as `clone-25`: these name the calls. After it is the number of
//! spare requests that are made before them. If request N fails, it is request N less that number of the calls. After the calls more spare
//! requests are made than the script lets fail: if one of these fails, the calls have made fewer. With ample memory nothing fails.
#![tactic(auto)]

mod carried;
mod checks;
mod counted;
mod counts;
mod extends;
mod full;
mod full_runs;
mod insertions;
mod limits;
mod pairs;
mod requests;
mod room;
mod runs;
mod spare;
mod texts;
mod trees;
mod whole;

use crate::checks::{Refusals, Wrong, check};
use crate::requests::Single;
use crate::spare::refused_of;
use std::alloc::Global;
use std::io::Read;
use std::process::ExitCode;
use std::str;

// More requests than the script ever lets fail of the calls.
const SPARE: usize = 2600;

// What to do.
#[derive(Clone, Copy)]
struct Order {
    // Whether to go through the strict calls, and through the lenient ones.
    strict: bool,
    lenient: bool,
    // A single call.
    single: Option<Single>,
    // How many spare requests to make first.
    spare: usize,
}

// Which request failed, by what the calls returned.
enum Outcome {
    // No call returned that one did.
    None,
    // One of the calls.
    InCalls,
    // The spare one of this number, from 1, after the calls.
    After(usize),
}

// The strict calls that insert values or make room.
const INSERTIONS_AND_ROOM: [&str; 9] = [
    "insertions",
    "replacements",
    "room",
    "room from the start",
    "room given back",
    "reserved room",
    "full bags",
    "extends",
    "collections",
];

fn inserted(alloc: Global, what: &str, refusals: &mut Refusals) -> Result<(), Wrong> {
    match what {
        "insertions" => insertions::insertions(alloc, refusals),
        "replacements" => insertions::replacements(alloc, refusals),
        "room" => room::room(alloc, refusals),
        "room from the start" => room::room_from_the_start(alloc, refusals),
        "room given back" => room::room_given_back(alloc, refusals),
        "reserved room" => room::reserved_room(alloc, refusals),
        "full bags" => full::full_bags(alloc, refusals),
        "extends" => extends::extends(alloc, refusals),
        "collections" => extends::collections(alloc, refusals),
        _ => Err(Wrong("a name in INSERTIONS_AND_ROOM")),
    }
}

// The strict calls on texts and trees, and the runs.
const TEXTS_AND_RUNS: [&str; 9] = [
    "names that are cloned",
    "texts that are inserted",
    "trees",
    "pairs",
    "trees without memory",
    "a tree in a carry",
    "a run in a carry",
    "runs in a carry",
    "runs",
];

fn read_or_run(alloc: Global, what: &str, refusals: &mut Refusals) -> Result<(), Wrong> {
    match what {
        "names that are cloned" => texts::cloned_names(alloc, refusals),
        "texts that are inserted" => texts::inserted_texts(alloc, refusals),
        "trees" => trees::trees(alloc, refusals),
        "pairs" => trees::pairs(alloc, refusals),
        "trees without memory" => trees::trees_without_memory(alloc, refusals),
        "a tree in a carry" => carried::written(alloc, refusals),
        "a run in a carry" => carried::run_alone(alloc, refusals),
        "runs in a carry" => carried::runs(alloc, refusals),
        "runs" => runs::runs(alloc, refusals),
        _ => Err(Wrong("a name in TEXTS_AND_RUNS")),
    }
}

// Calls that return each failure.
fn strict_calls(alloc: Global, refusals: &mut Refusals) -> Result<(), Wrong> {
    for what in &INSERTIONS_AND_ROOM {
        inserted(alloc, *what, refusals)?;
    }
    for what in &TEXTS_AND_RUNS {
        read_or_run(alloc, *what, refusals)?;
    }
    Ok(())
}

// Calls that do without some requests: std's lists are collected with less room if it can't be allocated. What they return is checked all
// the same.
fn lenient_calls(alloc: Global, refusals: &mut Refusals) -> Result<(), Wrong> {
    pairs::pairs_of_runs(alloc, refusals)?;
    carried::joined(alloc, refusals)?;
    whole::executions(alloc, refusals)
}

// Makes the spare requests, goes through the calls, and makes spare requests again.
fn outcome_of(alloc: Global, order: Order) -> Result<Outcome, Wrong> {
    let before = refused_of(alloc, order.spare);
    check(before.is_none(), "a refusal before the calls")?;
    let mut refusals = Refusals::new();
    if order.strict {
        strict_calls(alloc, &mut refusals)?;
    }
    if order.lenient {
        lenient_calls(alloc, &mut refusals)?;
    }
    if let Some(single) = order.single {
        single.make(alloc, &mut refusals)?;
    }
    match (refusals.seen(), refused_of(alloc, SPARE)) {
        (0, None) => Ok(Outcome::None),
        (1, None) => Ok(Outcome::InCalls),
        (0, Some(number)) => Ok(Outcome::After(number)),
        _ => Err(Wrong("more refusals than one")),
    }
}

// The order that is read, which is short enough for one read.
fn read_order<R: Read>(input: &mut R) -> Option<Order> {
    let mut text = [0u8; 32];
    let n = input.read(&mut text).ok()?;
    let (calls, spare) = str::from_utf8(&text[..n]).ok()?.trim_end().split_once(' ')?;
    let (strict, lenient) = match calls {
        "strict" => (true, false),
        "lenient" => (false, true),
        "all" => (true, true),
        _ => (false, false),
    };
    let single = if strict || lenient {
        None
    } else {
        Some(Single::of(calls)?)
    };
    Some(Order {
        strict,
        lenient,
        single,
        spare: spare.parse().ok()?,
    })
}

fn main(rt: HostRuntime) -> ExitCode {
    let Some(order) = read_order(&mut rt.stdin()) else {
        let _ = println!(rt; "wrong: no order");
        return ExitCode::from(1);
    };
    let said = match outcome_of(rt.alloc(), order) {
        Ok(Outcome::None) => println!(rt; "nothing refused"),
        Ok(Outcome::InCalls) => println!(rt; "refused, and all stands"),
        Ok(Outcome::After(number)) => println!(rt; "not refused: request {number} after the calls"),
        Err(Wrong(what)) => {
            let _ = println!(rt; "wrong: {what}");
            return ExitCode::from(1);
        }
    };
    ExitCode::from(if said.is_ok() { 0 } else { 1 })
}
