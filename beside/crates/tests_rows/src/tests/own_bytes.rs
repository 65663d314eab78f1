//! How many bytes a bag and its walks have themselves.
use hashbag::{Drain, FixedState, HashBag, IntoIter, Iter, SetIter};
use std::fs;
use std::test::Fail;
use tests_kit::OneState;

#[test]
fn sizes_of_bags_and_walks(_rt: HostRuntime) -> Result<(), Fail> {
    for (name, size, want) in [
        ("HashBag<u64>", size_of::<HashBag<u64, FixedState>>(), 200),
        (
            "HashBag<u64, OneState>",
            size_of::<HashBag<u64, OneState>>(),
            192,
        ),
        ("Iter<u64>", size_of::<Iter<u64>>(), 128),
        ("SetIter<u64>", size_of::<SetIter<u64>>(), 96),
        ("IntoIter<u64>", size_of::<IntoIter<u64>>(), 136),
        ("Drain<u64>", size_of::<Drain<u64>>(), 144),
    ] {
        if size != want {
            return Err(Fail::new(format_args!("{name} has {size} bytes")));
        }
    }
    Ok(())
}

// How many pages the process may address; 0 if the system doesn't say it.
fn pages(rt: &HostRuntime) -> Result<usize, Fail> {
    let text = fs::read_to_string(rt, "/proc/self/statm")?;
    let number = text.split_whitespace().next().unwrap_or("");
    let pages: usize = number.parse().unwrap_or(0);
    Ok(pages)
}

// A table of 2^20 slots has a byte for each slot, and room for a number with its count: 17 bytes.
#[test]
fn bytes_of_a_table(rt: HostRuntime) -> Result<(), Fail> {
    let before = pages(&rt)?;
    let bag: HashBag<u64> = HashBag::with_capacity(rt.alloc(), 700_000)?;
    let after = pages(&rt)?;
    let bytes = after.saturating_sub(before).saturating_mul(4096);
    let each = bytes.saturating_add(bag.slots() / 2) / bag.slots().max(1);
    if each != 17 {
        return Err(Fail::new(format_args!("{each} bytes a slot")));
    }
    Ok(())
}
