//! The values that go into a bag.
use std::alloc::{AllocError, Global};

/// Returns a number that is different for each `i`.
fn mixed(i: u64) -> u64 {
    let x = i.wrapping_add(0x9e37_79b9_7f4a_7c15);
    let y = (x ^ (x >> 30)).wrapping_mul(0xbf58_476d_1ce4_e5b9);
    let z = (y ^ (y >> 27)).wrapping_mul(0x94d0_49bb_1331_11eb);
    z ^ (z >> 31)
}

/// Returns `many` values from the number `from` on. They are in the order of their numbers if `step` is 1, and in another one if it has no
/// factor in common with `many`.
pub fn distinct(alloc: Global, from: u64, many: u64, step: u64) -> Result<Vec<u64>, AllocError> {
    let mut values = Vec::new(alloc);
    for i in 0..many {
        values.push(mixed(from.wrapping_add(i.wrapping_mul(step) % many)))?;
    }
    Ok(values)
}

/// Returns `many` values of 50,000, as words are in a text: a few often, and many seldom.
pub fn words(alloc: Global, many: u64) -> Result<Vec<u64>, AllocError> {
    let mut values = Vec::new(alloc);
    for i in 0..many {
        let draw = mixed(i);
        let least = 1u64 << (draw >> 60);
        values.push(mixed((least + draw % least) % 50_000))?;
    }
    Ok(values)
}

/// Returns `many` values with counts from 1 to 1,000.
pub fn counts(alloc: Global, many: u64) -> Result<Vec<(u64, usize)>, AllocError> {
    let mut values = Vec::new(alloc);
    for i in 0..many {
        values.push((mixed(i), (mixed(i ^ many) % 1000) as usize + 1))?;
    }
    Ok(values)
}

/// Returns a text of `many` of these words, each a number in hexadecimal, of six digits at most.
pub fn text(alloc: Global, many: u64) -> Result<String, AllocError> {
    let mut text = String::new(alloc);
    for value in words(alloc, many)? {
        let digits = value >> 40;
        text.push_str(format!(in alloc; "{digits:x} ")?.as_str())?;
    }
    Ok(text)
}
