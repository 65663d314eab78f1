//! What is measured of Rust's own map: a count for each number, as one keeps them without a bag.
use crate::fold::Fold;
use std::collections::HashMap;
use std::collections::hash_map::Entry;
use std::hash::BuildHasherDefault;

pub type Counts<T> = HashMap<T, usize, BuildHasherDefault<Fold>>;
pub type Map = Counts<u64>;

#[inline]
pub fn put_many(map: &mut Map, value: u64, many: usize) {
    *map.entry(value).or_insert(0) += many;
}

#[inline]
pub fn count(map: &Map, value: &u64) -> usize {
    map.get(value).copied().unwrap_or(0)
}

#[inline]
pub fn distinct_values(map: &Map) -> usize {
    map.len()
}

// One occurrence, as a bag removes it.
#[inline]
pub fn take_out(map: &mut Map, value: &u64) -> usize {
    let Entry::Occupied(mut entry) = map.entry(*value) else {
        return 0;
    };
    let count = *entry.get();
    if count == 1 {
        entry.remove();
    } else {
        *entry.get_mut() -= 1;
    }
    count
}

#[inline]
pub fn walk(map: &Map) -> u64 {
    let mut sum = 0u64;
    for (value, count) in map {
        sum = sum.wrapping_add(value.wrapping_mul(*count as u64));
    }
    sum
}

#[inline]
pub fn pairs(map: &Map) -> Vec<(u64, usize)> {
    map.iter().map(|(value, count)| (*value, *count)).collect()
}

#[inline]
pub fn join(first: &Map, second: &Map) -> u64 {
    let mut sum = 0u64;
    for (value, count) in first {
        let other = second.get(value).copied().unwrap_or(0);
        sum = sum.wrapping_add(value.wrapping_mul((*count as u64) ^ (other as u64) << 1));
    }
    for (value, count) in second {
        if !first.contains_key(value) {
            sum = sum.wrapping_add(value.wrapping_mul((*count as u64) << 1));
        }
    }
    sum
}

#[inline]
pub fn merge(into: &mut Map, from: Map) {
    for (value, count) in from {
        *into.entry(value).or_insert(0) += count;
    }
}

// Inserts each value into another map, in the order of a walk.
#[inline]
pub fn copy(into: &mut Map, from: &Map) {
    for (value, count) in from {
        *into.entry(*value).or_insert(0) += count;
    }
}

// A word becomes a `String` once.
#[inline]
pub fn put_word(map: &mut Counts<String>, word: &str) {
    match map.get_mut(word) {
        Some(count) => *count += 1,
        None => {
            map.insert(word.to_string(), 1);
        }
    }
}

#[inline]
pub fn distinct_words(map: &Counts<String>) -> usize {
    map.len()
}
