//! What is measured of insertions, look-ups, walks and removals.
use crate::values::{distinct, words};
use crate::wholes::{of_clones, of_commonest, of_copies, of_texts, of_two};
use anyhow::bail;
use hashbag::{BagError, HashBag};
use std::time::{CpuClock, Duration};

/// Inserts all of them.
pub fn fill(bag: &mut HashBag<u64>, values: &[u64]) -> Result<(), BagError> {
    for value in values {
        bag.insert(*value)?;
    }
    Ok(())
}

/// Returns a bag of these values.
pub fn filled(rt: &HostRuntime, values: &[u64]) -> Result<HashBag<u64>, BagError> {
    let mut bag = HashBag::new(rt.alloc());
    fill(&mut bag, values)?;
    Ok(bag)
}

fn look_up(bag: &HashBag<u64>, values: &[u64]) -> usize {
    let mut sum = 0usize;
    for value in values {
        sum = sum.wrapping_add(bag.contains(value));
    }
    sum
}

fn take_out(bag: &mut HashBag<u64>, values: &[u64]) -> usize {
    let mut sum = 0usize;
    for value in values {
        sum = sum.wrapping_add(bag.remove(value));
    }
    sum
}

fn walk(bag: &HashBag<u64>) -> u64 {
    let mut sum = 0u64;
    for (value, count) in bag.set_iter() {
        sum = sum.wrapping_add(value.wrapping_mul(count as u64));
    }
    sum
}

/// Returns the processor time, of user and system, that the process has used.
pub fn now(rt: &HostRuntime) -> anyhow::Result<Duration> {
    Ok(rt.process_cpu_time()?)
}

/// Returns the processor time since then.
pub fn since(rt: &HostRuntime, start: Duration) -> anyhow::Result<Duration> {
    Ok(now(rt)?.saturating_sub(start))
}

/// Prints the sum of what was done with `many` values, and on standard error how many times it was done to a value, and the time of all.
pub fn say(
    rt: &HostRuntime,
    what: &str,
    many: u64,
    done: u64,
    time: Duration,
    sum: u64,
) -> anyhow::Result<()> {
    let nanos = time.as_nanos();
    println!(rt; "{what} {many} {sum}")?;
    eprintln!(rt; "{what} {many} {done} {nanos}")?;
    Ok(())
}

// Inserts the values into a new bag, again and again, and returns the last bag.
fn insertions(
    rt: &HostRuntime,
    what: &str,
    values: &[u64],
    times: u64,
) -> anyhow::Result<HashBag<u64>> {
    let many = values.len() as u64;
    let mut sum = 0u64;
    let mut bag = HashBag::new(rt.alloc());
    let start = now(rt)?;
    for _ in 0..times {
        bag = filled(rt, values)?;
        sum = sum.wrapping_add(bag.set_len() as u64);
    }
    let time = since(rt, start)?;
    say(rt, what, many, many.wrapping_mul(times), time, sum)?;
    Ok(bag)
}

fn look_ups(
    rt: &HostRuntime,
    what: &str,
    bag: &HashBag<u64>,
    values: &[u64],
    times: u64,
) -> anyhow::Result<()> {
    let many = values.len() as u64;
    let mut sum = 0u64;
    let start = now(rt)?;
    for _ in 0..times {
        sum = sum.wrapping_add(look_up(bag, values) as u64);
    }
    let time = since(rt, start)?;
    say(rt, what, many, many.wrapping_mul(times), time, sum)
}

fn walks(rt: &HostRuntime, bag: &HashBag<u64>, many: u64, times: u64) -> anyhow::Result<()> {
    let mut sum = 0u64;
    let start = now(rt)?;
    for _ in 0..times {
        sum = sum.wrapping_add(walk(bag));
    }
    let time = since(rt, start)?;
    say(rt, "set_walk", many, many.wrapping_mul(times), time, sum)
}

// Removes the values and inserts them again, again and again. The insertions aren't measured.
fn removals(
    rt: &HostRuntime,
    mut bag: HashBag<u64>,
    values: &[u64],
    times: u64,
) -> anyhow::Result<()> {
    let many = values.len() as u64;
    let mut sum = 0u64;
    let mut time = Duration::ZERO;
    for turn in 0..times {
        if turn > 0 {
            fill(&mut bag, values)?;
        }
        let start = now(rt)?;
        sum = sum.wrapping_add(take_out(&mut bag, values) as u64);
        time = time.saturating_add(since(rt, start)?);
    }
    say(rt, "remove", many, many.wrapping_mul(times), time, sum)
}

// Many values into one bag, looked up, walked over, and taken out.
fn large(rt: &HostRuntime, many: u64, times: u64) -> anyhow::Result<()> {
    let other_order = distinct(rt.alloc(), 0, many, 7919)?;
    let absent = distinct(rt.alloc(), many, many, 1)?;
    let all = distinct(rt.alloc(), 0, many, 1)?;
    let bag = insertions(rt, "insert", all.as_slice(), times)?;
    look_ups(rt, "found", &bag, other_order.as_slice(), times)?;
    look_ups(rt, "absent", &bag, absent.as_slice(), times)?;
    walks(rt, &bag, many, times)?;
    removals(rt, bag, other_order.as_slice(), times)
}

// Returns the longest of these times after `longer` longer ones are left out.
fn longest_but(times: &[u64], longer: usize) -> Duration {
    if longer < times.len() {
        Duration::from_nanos(times[times.len() - 1 - longer])
    } else {
        Duration::ZERO
    }
}

// Measures each single insertion. Each value is replaced by its time.
fn growth(rt: &HostRuntime, many: u64) -> anyhow::Result<()> {
    let mut times = distinct(rt.alloc(), 0, many, 1)?;
    let mut bag = HashBag::new(rt.alloc());
    let mut before = now(rt)?;
    for value in &mut times {
        bag.insert(*value)?;
        let after = now(rt)?;
        *value = u64::try_from(after.saturating_sub(before).as_nanos()).unwrap_or(u64::MAX);
        before = after;
    }
    times.sort_unstable();
    let sum = bag.set_len() as u64;
    let of_10000 = longest_but(times.as_slice(), times.len() / 10_000);
    let of_1000 = longest_but(times.as_slice(), times.len() / 1000);
    say(rt, "worst", many, 1, longest_but(times.as_slice(), 0), sum)?;
    say(rt, "worst_of_10000", many, 1, of_10000, sum)?;
    say(rt, "worst_of_1000", many, 1, of_1000, sum)
}

/// Measures what is named, with `many` values, `times` times.
pub fn measure(rt: &HostRuntime, what: &str, many: u64, times: u64) -> anyhow::Result<()> {
    match what {
        "large" => large(rt, many, times),
        "words" => {
            insertions(rt, what, words(rt.alloc(), many)?.as_slice(), times)?;
            Ok(())
        }
        "growth" => growth(rt, many),
        "two" => of_two(rt, many, times),
        "copy" => of_copies(rt, many),
        "clone" => of_clones(rt, many, times),
        "common" => of_commonest(rt, many),
        "texts" => of_texts(rt, many),
        _ => bail!("not measured: {what}"),
    }
}
