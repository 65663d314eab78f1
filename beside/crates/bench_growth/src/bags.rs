//! The bags that are used.
use anyhow::{Result, bail};
use hashbag::{BagError, HashBag};
use std::alloc::Global;

/// The least value of the first bag. At the sizes at which bags are used here, the value that arrives just after a growth then has its home
/// in the first half of the newer table, and what searches behind that value passes many slots.
pub const FIRST: u64 = 2;

/// A bag of `n` values from `from` on, which were inserted in ascending order. If `n` is 1 above three quarters of a power of two, the bag has
/// just grown: nearly all of its values are still in the older table.
pub fn risen(alloc: Global, from: u64, n: u64) -> Result<HashBag<u64>, BagError> {
    let mut bag = HashBag::new(alloc);
    for place in 0..n {
        bag.insert(from.wrapping_add(place))?;
    }
    Ok(bag)
}

// A bag that had `n` values, and has the greatest of them alone.
fn emptied(alloc: Global, n: u64) -> Result<HashBag<u64>, BagError> {
    let mut bag = risen(alloc, FIRST, n)?;
    for place in 1..n {
        bag.remove(&place.wrapping_add(FIRST - 1));
    }
    Ok(bag)
}

// A bag of `n` values that has ended its carry.
fn carried(alloc: Global, n: u64) -> Result<HashBag<u64>, BagError> {
    let mut bag = risen(alloc, FIRST, n)?;
    bag.finish_carry();
    Ok(bag)
}

/// The two bags of that name.
///
/// The first bag is empty (`none`), has `n` values (`one`, `two`, `carried`, the last after the end of its carry), or had them and has one of
/// them left (`emptied`, `emptied_two`). The second bag has `n` values in `two` and `emptied_two`, of which the first has or had
/// half, and else is empty.
pub fn bags(alloc: Global, which: &str, n: u64) -> Result<(HashBag<u64>, HashBag<u64>)> {
    let first = match which {
        "none" => HashBag::new(alloc),
        "one" | "two" => risen(alloc, FIRST, n)?,
        "carried" => carried(alloc, n)?,
        "emptied" | "emptied_two" => emptied(alloc, n)?,
        _ => bail!("no such bags: {which}"),
    };
    let second = match which {
        "two" | "emptied_two" => risen(alloc, (n / 2).wrapping_add(FIRST), n)?,
        _ => HashBag::new(alloc),
    };
    Ok((first, second))
}
