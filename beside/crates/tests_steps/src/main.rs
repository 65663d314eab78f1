//! Makes steps on a bag whose state hashes each number to itself, and prints what its tables are after them. Each line of standard input is a run: a
//! seed, how many values there are, what each is multiplied by, how many steps are made, and after how many of them a line is printed.
//!
//! A line has the number of the step, the slots, the slots that wait, the room, and a sum of these three and of what was returned, over all steps so
//! far. The crate of `bindings/rust` makes the same steps, and has to print the same: its tables are these.
#![tactic(auto)]

use anyhow::{Result, bail};
use hashbag::{BagError, HashBag};
use std::alloc::Global;
use tests_kit::IdentityState;

type Bag = HashBag<u64, IdentityState>;

// What is known of a run.
#[derive(Clone, Copy)]
struct Run {
    seed: u64,
    values: u64,
    factor: u64,
    steps: u64,
    every: u64,
}

// Returns a number that is different for each `i`.
fn mixed(i: u64) -> u64 {
    let x = i.wrapping_add(0x9e37_79b9_7f4a_7c15);
    let y = (x ^ (x >> 30)).wrapping_mul(0xbf58_476d_1ce4_e5b9);
    let z = (y ^ (y >> 27)).wrapping_mul(0x94d0_49bb_1331_11eb);
    z ^ (z >> 31)
}

// Replaces the count of a present value.
fn set(bag: &mut Bag, value: u64, n: usize) -> Result<(), BagError> {
    match bag.entry(value).and_modify(|count: &mut usize| *count = n) {
        Ok(_) => Ok(()),
        Err(error) => Err(error),
    }
}

// Makes a step that seldom comes, and concerns the whole bag.
fn whole_step(bag: &mut Bag, which: u64, value: u64) -> Result<usize, BagError> {
    match which {
        0 => bag.retain(|value: &u64, count: usize| if *value % 3 == 0 { 0 } else { count / 2 }),
        1 => bag.clear(),
        2 => bag.shrink_to_fit()?,
        3 => bag.reserve((value % 90) as usize)?,
        4 => return Ok(bag.drain().count()),
        _ => bag.finish_carry(),
    }
    Ok(bag.set_len())
}

// Makes a step, and returns a number that it returned.
fn step(bag: &mut Bag, draw: u64, value: u64) -> Result<usize, BagError> {
    let n = (draw >> 40) as usize % 4;
    match draw % 64 {
        0..=33 => bag.insert(value),
        34..=37 => bag.insert_many(value, n),
        38..=45 => Ok(bag.remove(&value)),
        46..=49 => Ok(bag.remove_up_to(&value, n)),
        50..=53 => match bag.take_all(&value) {
            Some((_, count)) => Ok(count),
            None => Ok(0),
        },
        54 => bag.replace(value),
        55..=56 => bag.set_count(value, n),
        57..=58 => {
            set(bag, value, n)?;
            Ok(bag.contains(&value))
        }
        59 => bag.entry(value).or_insert_many(n),
        60 => match bag.try_take(&value) {
            Ok(_) => Ok(1),
            Err(Some((_, before))) => Ok(before),
            Err(None) => Ok(0),
        },
        _ if (draw >> 32) % 16 == 0 => whole_step(bag, (draw >> 36) % 6, draw >> 48),
        _ => Ok(bag.contains(&value)),
    }
}

// Makes the steps of a run.
fn make(rt: &HostRuntime, run: Run) -> Result<()> {
    let Run {
        seed,
        values,
        factor,
        steps,
        every,
    } = run;
    if values == 0 || every == 0 {
        bail!("no values, or no lines");
    }
    let mut bag: Bag = HashBag::with_hasher(rt.alloc(), IdentityState);
    let mut sum = 0u64;
    for i in 0..steps {
        let draw = mixed(seed ^ mixed(i));
        let value = (mixed(draw) % values).wrapping_mul(factor);
        let returned = step(&mut bag, draw, value)?;
        let (slots, waiting, room) = (bag.slots(), bag.waiting(), bag.room());
        sum = mixed(sum ^ slots as u64);
        sum = mixed(sum ^ waiting as u64);
        sum = mixed(sum ^ room as u64);
        sum = mixed(sum ^ returned as u64);
        if i % every == 0 {
            println!(rt; "{i} {slots} {waiting} {room} {sum}")?;
        }
    }
    Ok(())
}

// Reads the run of a line.
fn run_of(line: &str) -> Result<Run> {
    let mut words = line.split_whitespace();
    let (Some(seed), Some(values), Some(factor), Some(steps), Some(every)) = (
        words.next(),
        words.next(),
        words.next(),
        words.next(),
        words.next(),
    ) else {
        bail!("no run: {line}");
    };
    Ok(Run {
        seed: seed.parse()?,
        values: values.parse()?,
        factor: factor.parse()?,
        steps: steps.parse()?,
        every: every.parse()?,
    })
}

fn main(rt: HostRuntime) -> Result<()> {
    for line in rt.lines(rt.alloc()) {
        make(&rt, run_of(line?.as_str())?)?;
    }
    Ok(())
}
