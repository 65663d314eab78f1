//! Measures Rust's own map of numbers to counts, or the Rust crate `hashbag` (`--cfg bag`), under the hash by which a bag hashes where no
//! other is given.
//!
//! It does step by step what the program `bench_times` does with a bag, reads the same lines, and prints in the same form.
#[cfg(bag)]
#[path = "of_bag.rs"]
mod counts;
#[cfg(not(bag))]
#[path = "of_map.rs"]
mod counts;
mod fold;
mod kit;

use counts::*;
use kit::*;
use std::hint::black_box;

// Prints the sum of what was done with `many` values, and on standard error how many times it was done to a value, and the time of all.
fn say(what: &str, many: u64, done: u64, time: u64, sum: u64) {
    println!("{what} {many} {sum}");
    eprintln!("{what} {many} {done} {time}");
}

// Returns `many` values from the number `from` on, in another order if `step` isn't 1.
fn distinct(from: u64, many: u64, step: u64) -> Vec<u64> {
    (0..many)
        .map(|i| mixed(from.wrapping_add(i.wrapping_mul(step) % many)))
        .collect()
}

fn words(many: u64) -> Vec<u64> {
    (0..many).map(|i| mixed(word(i))).collect()
}

fn fill(map: &mut Map, values: &[u64]) {
    for value in values {
        put_many(map, *value, 1);
    }
}

fn filled(values: &[u64]) -> Map {
    let mut map = Map::default();
    fill(&mut map, values);
    map
}

// Does it `times` times, and prints its time and the sum of what it returns.
fn repeat(what: &str, many: u64, values: u64, times: u64, mut once: impl FnMut() -> u64) {
    let mut sum = 0u64;
    let start = now();
    for _ in 0..times {
        sum = sum.wrapping_add(once());
    }
    let time = now() - start;
    say(what, many, values * times, time, sum);
}

fn insertions(what: &str, values: &[u64], times: u64) -> Map {
    let many = values.len() as u64;
    let mut map = Map::default();
    repeat(what, many, many, times, || {
        map = filled(values);
        distinct_values(&map) as u64
    });
    map
}

fn look_ups(what: &str, map: &Map, values: &[u64], times: u64) {
    let many = values.len() as u64;
    repeat(what, many, many, times, || {
        let map = black_box(map);
        values.iter().map(|it| count(map, it) as u64).sum()
    });
}

// Removes the values and inserts them again, again and again. The insertions aren't measured.
fn removals(mut map: Map, values: &[u64], times: u64) {
    let many = values.len() as u64;
    let (mut sum, mut time) = (0, 0);
    for turn in 0..times {
        if turn > 0 {
            fill(&mut map, values);
        }
        let start = now();
        for value in values {
            sum += take_out(&mut map, value) as u64;
        }
        time += now() - start;
    }
    say("remove", many, many * times, time, sum);
}

fn large(many: u64, times: u64) {
    let other_order = distinct(0, many, 7919);
    let map = insertions("insert", &distinct(0, many, 1), times);
    look_ups("found", &map, &other_order, times);
    look_ups("absent", &map, &distinct(many, many, 1), times);
    repeat("set_walk", many, many, times, || walk(black_box(&map)));
    removals(map, &other_order, times);
}

// Two maps that have half of their values in common are joined, and then one is merged into the other.
fn two(many: u64, times: u64) {
    let (of_first, of_second) = (distinct(0, many, 1), distinct(many / 2, many, 1));
    let (mut sum, mut distinct) = (0u64, 0);
    let (mut joins, mut merges) = (0, 0);
    for _ in 0..times {
        let (mut first, second) = (filled(&of_first), filled(&of_second));
        let start = now();
        sum = sum.wrapping_add(join(&first, &second));
        joins += now() - start;
        let start = now();
        merge(&mut first, second);
        merges += now() - start;
        distinct += distinct_values(&first) as u64;
    }
    say("outer_join", many, 2 * many * times, joins, sum);
    say("merge", many, many * times, merges, distinct);
}

// The values of one map are inserted into another by a walk. Then the other map is dropped.
fn copies(many: u64) {
    let map = filled(&distinct(0, many, 1));
    let mut other = Map::default();
    let start = now();
    copy(&mut other, &map);
    let time = now() - start;
    let sum = distinct_values(&other) as u64;
    say("copy", many, many, time, sum);
    let start = now();
    drop(black_box(other));
    say("drop", many, many, now() - start, sum);
}

// A map is cloned, and the clone is dropped, again and again.
fn clones(many: u64, times: u64) {
    let map = filled(&distinct(0, many, 1));
    let (mut sum, mut time) = (0, 0);
    for _ in 0..times {
        let start = now();
        let other = black_box(black_box(&map).clone());
        time += now() - start;
        sum += distinct_values(&other) as u64;
    }
    say("clone", many, many * times, time, sum);
}

// Measures each single insertion.
fn growth(many: u64) {
    let mut times = distinct(0, many, 1);
    let mut map = Map::default();
    let mut before = now();
    for value in &mut times {
        put_many(&mut map, *value, 1);
        let after = now();
        *value = after - before;
        before = after;
    }
    times.sort_unstable();
    let longest_but = |longer: usize| times[times.len() - 1 - longer];
    let sum = distinct_values(&map) as u64;
    say("worst", many, 1, longest_but(0), sum);
    say(
        "worst_of_10000",
        many,
        1,
        longest_but(times.len() / 10_000),
        sum,
    );
    say(
        "worst_of_1000",
        many,
        1,
        longest_but(times.len() / 1000),
        sum,
    );
}

// The ten most common of many values.
fn most_common(many: u64) {
    let mut map = Map::default();
    for i in 0..many {
        put_many(&mut map, mixed(i), (mixed(i ^ many) % 1000) as usize + 1);
    }
    let order = |a: &(u64, usize), b: &(u64, usize)| b.1.cmp(&a.1).then(a.0.cmp(&b.0));
    repeat("most_common", many, many, 1, || {
        let mut pairs = pairs(&map);
        if pairs.len() > 10 {
            pairs.select_nth_unstable_by(10, order);
            pairs.truncate(10);
        }
        pairs.sort_unstable_by(order);
        pairs.iter().fold(0u64, |sum, (value, count)| {
            sum.wrapping_mul(31)
                .wrapping_add(value.wrapping_mul(*count as u64))
        })
    });
}

// The words of a text, each of which becomes a `String` once.
fn texts(many: u64) {
    let text: String = words(many)
        .iter()
        .map(|it| format!("{:x} ", it >> 40))
        .collect();
    repeat("texts", many, many, 1, || {
        let mut map = Counts::default();
        for word in text.split_whitespace() {
            put_word(&mut map, word);
        }
        distinct_words(&map) as u64
    });
}

fn main() {
    each_line(|what, many, times| match what {
        "large" => large(many, times),
        "words" => drop(insertions(what, &words(many), times)),
        "growth" => growth(many),
        "two" => two(many, times),
        "copy" => copies(many),
        "clone" => clones(many, times),
        "common" => most_common(many),
        "texts" => texts(many),
        _ => panic!("not measured: {what}"),
    });
}
