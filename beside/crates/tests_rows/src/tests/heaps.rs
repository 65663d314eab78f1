//! How much memory the most common values take, by the most that the process has addressed so far.
use hashbag::HashBag;
use hashbag_ops::most_common;
use std::fs;
use std::test::Fail;

// How many values the bag has. A list of them with their counts is 480,000 bytes.
const VALUES: usize = 30_000;

// How many kilobytes the process has addressed at most; 0 if the system doesn't say it.
fn peak(rt: &HostRuntime) -> Result<usize, Fail> {
    let text = fs::read_to_string(rt, "/proc/self/status")?;
    for line in text.lines() {
        if let Some(rest) = line.strip_prefix("VmPeak:") {
            let number = rest.split_whitespace().next().unwrap_or("");
            let kilobytes: usize = number.parse().unwrap_or(0);
            return Ok(kilobytes);
        }
    }
    Ok(0)
}

// How many kilobytes more the process has addressed at most, after the k most common were found.
fn taken(rt: &HostRuntime, bag: &HashBag<usize>, k: usize) -> Result<usize, Fail> {
    let before = peak(rt)?;
    let found = most_common(rt.alloc(), bag, k)?.len();
    let after = peak(rt)?;
    if found != k {
        return Err(Fail::new(format_args!("{found} of {k}")));
    }
    Ok(after.saturating_sub(before))
}

// A call for few of the most common values allocates a list of few; a call for all values allocates a list of all.
#[test]
fn few_take_little_memory(rt: HostRuntime) -> Result<(), Fail> {
    let mut bag: HashBag<usize> = HashBag::with_capacity(rt.alloc(), VALUES)?;
    for value in 0..VALUES {
        bag.insert(value)?;
    }
    let few = taken(&rt, &bag, 10)?;
    let all = taken(&rt, &bag, VALUES)?;
    if few > 200 || all < 300 {
        return Err(Fail::new(format_args!("{few} and {all} kilobytes")));
    }
    Ok(())
}
