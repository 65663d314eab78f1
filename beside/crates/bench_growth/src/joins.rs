//! Uses of two bags together.
use anyhow::Result;
use hashbag::HashBag;
use hashbag_ops::{contains_all, is_disjoint, keep_common, merge, take_away};
use std::alloc::Global;
use std::mem;

fn sum_of_outer_join(first: &HashBag<u64>, second: &HashBag<u64>) -> u64 {
    let mut sum = 0u64;
    for (value, one, other) in first.outer_join(second) {
        let weight = (one as u64).wrapping_add((other as u64).wrapping_mul(2));
        sum = sum.wrapping_add(value.wrapping_mul(weight));
    }
    sum
}

fn sum_of_difference(first: &HashBag<u64>, second: &HashBag<u64>) -> u64 {
    let mut sum = 0u64;
    for (value, _) in first.difference(second) {
        sum = sum.wrapping_add(*value);
    }
    sum
}

// The values that the first bag has more often than the second, less those that it has less often.
fn sum_of_signed_difference(first: &HashBag<u64>, second: &HashBag<u64>) -> u64 {
    let mut sum = 0u64;
    for (value, more) in first.signed_difference(second) {
        if more > 0 {
            sum = sum.wrapping_add(*value);
        } else if more < 0 {
            sum = sum.wrapping_sub(*value);
        }
    }
    sum
}

fn sum_of_not_in(first: &HashBag<u64>, second: &HashBag<u64>) -> u64 {
    let mut sum = 0u64;
    for (value, _) in first.not_in(second) {
        sum = sum.wrapping_add(*value);
    }
    sum
}

/// Does the use of that name, if it is one of these.
pub fn joined(
    alloc: Global,
    what: &str,
    bag: &mut HashBag<u64>,
    other: &mut HashBag<u64>,
) -> Result<Option<u64>> {
    let number = match what {
        "outer_join" => sum_of_outer_join(bag, other),
        "difference" => sum_of_difference(bag, other),
        "signed_difference" => sum_of_signed_difference(bag, other),
        "not_in" => sum_of_not_in(bag, other),
        "contains_all" => contains_all(bag, bag) as u64,
        "is_disjoint" => is_disjoint(bag, other) as u64,
        "merge" => {
            merge(bag, mem::replace(other, HashBag::new(alloc)))?;
            bag.set_len() as u64
        }
        "keep_common" => {
            keep_common(bag, other);
            bag.set_len() as u64
        }
        "take_away" => {
            take_away(bag, other);
            bag.set_len() as u64
        }
        _ => return Ok(None),
    };
    Ok(Some(number))
}
