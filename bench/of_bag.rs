//! What is measured of the Rust crate `hashbag`, where its source is at hand.
use crate::fold::Fold;
use hashbag::HashBag;
use std::hash::BuildHasherDefault;

pub type Counts<T> = HashBag<T, BuildHasherDefault<Fold>>;
pub type Map = Counts<u64>;

#[inline]
pub fn put_many(bag: &mut Map, value: u64, many: usize) {
    bag.insert_many(value, many);
}

#[inline]
pub fn count(bag: &Map, value: &u64) -> usize {
    bag.contains(value)
}

#[inline]
pub fn distinct_values(bag: &Map) -> usize {
    bag.set_len()
}

#[inline]
pub fn take_out(bag: &mut Map, value: &u64) -> usize {
    bag.remove(value)
}

#[inline]
pub fn walk(bag: &Map) -> u64 {
    let mut sum = 0u64;
    for (value, count) in bag.set_iter() {
        sum = sum.wrapping_add(value.wrapping_mul(count as u64));
    }
    sum
}

#[inline]
pub fn pairs(bag: &Map) -> Vec<(u64, usize)> {
    bag.set_iter()
        .map(|(value, count)| (*value, count))
        .collect()
}

#[inline]
pub fn join(first: &Map, second: &Map) -> u64 {
    let mut sum = 0u64;
    for (value, count, other) in first.outer_join(second) {
        sum = sum.wrapping_add(value.wrapping_mul((count as u64) ^ (other as u64) << 1));
    }
    sum
}

#[inline]
pub fn merge(into: &mut Map, from: Map) {
    for (value, count) in from {
        into.insert_many(value, count);
    }
}

#[inline]
pub fn copy(into: &mut Map, from: &Map) {
    for (value, count) in from.set_iter() {
        into.insert_many(*value, count);
    }
}

// That crate can't insert by a text that isn't owned: it makes a `String` of each word.
#[inline]
pub fn put_word(bag: &mut Counts<String>, word: &str) {
    bag.insert(word.to_string());
}

#[inline]
pub fn distinct_words(bag: &Counts<String>) -> usize {
    bag.set_len()
}
