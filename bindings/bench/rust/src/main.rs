//! Times the crate of bindings/rust, the original crate, and std's `HashMap<T, usize>` with a total, in turns, under one hash: ns of processor time
//! for each value, and the ratios. `peers [SIZE..] [WORK..]`; else at 1,000, 10,000, 80,000, 100,000 and a million, and all works. A bag of 100,000
//! is in a carry.
//!
//! Each loop is a function of its own, so that no loop's registers depend on the others. What is printed is the least of many short turns: other work
//! on the machine can only add to it.
use std::collections::HashMap;
use std::hash::{BuildHasher, BuildHasherDefault, Hash, Hasher};
use std::hint::black_box;

/// A hash of one multiplication.
#[derive(Clone, Copy, Default)]
pub struct Fold(u64);

impl Hasher for Fold {
    fn finish(&self) -> u64 {
        self.0
    }

    fn write(&mut self, bytes: &[u8]) {
        for part in bytes.chunks(8) {
            let mut word = [0u8; 8];
            word[..part.len()].copy_from_slice(part);
            self.write_u64(u64::from_le_bytes(word));
        }
    }

    fn write_u64(&mut self, number: u64) {
        let product = u128::from(self.0 ^ number).wrapping_mul(0x9E37_79B9_7F4A_7C15_F39C_C060_5CED_C835);
        self.0 = (product as u64) ^ ((product >> 64) as u64);
    }
}

type State = BuildHasherDefault<Fold>;

/// The processor time of this process, in ns: other work on the machine adds less to it than to the time of day.
fn now() -> f64 {
    unsafe extern "C" {
        fn clock_gettime(clock: i32, at: *mut [i64; 2]) -> i32;
    }
    let mut at = [0i64; 2];
    unsafe { clock_gettime(2, &mut at) };
    at[0] as f64 * 1e9 + at[1] as f64
}

fn random(x: &mut u64) -> u64 {
    *x = x.wrapping_mul(6364136223846793005).wrapping_add(1442695040888963407);
    *x ^ (*x >> 29)
}

/// std's map as a bag.
mod map {
    use super::*;

    pub struct HashBag<T, S>(HashMap<T, usize, S>, usize);

    impl<T: Eq + Hash + Clone, S: BuildHasher + Clone> HashBag<T, S> {
        pub fn with_hasher(state: S) -> Self {
            HashBag(HashMap::with_hasher(state), 0)
        }

        #[inline(always)]
        pub fn insert(&mut self, value: T) -> usize {
            self.1 += 1;
            let count = self.0.entry(value).or_insert(0);
            *count += 1;
            *count - 1
        }

        #[inline(always)]
        pub fn contains(&self, value: &T) -> usize {
            self.0.get(value).copied().unwrap_or(0)
        }

        pub fn set_iter(&self) -> impl Iterator<Item = (&T, usize)> {
            self.0.iter().map(|(value, count)| (value, *count))
        }

        pub fn outer_join<'a>(&'a self, other: &'a Self) -> impl Iterator<Item = (&'a T, usize, usize)> {
            let ours = self.0.iter().map(|(value, count)| (value, *count, other.contains(value)));
            ours.chain(other.0.iter().filter(|(value, _)| self.contains(value) == 0).map(|(value, count)| (value, 0, *count)))
        }

        pub fn take_all(&mut self, value: &T) -> Option<(T, usize)> {
            let pair = self.0.remove_entry(value)?;
            self.1 -= pair.1;
            Some(pair)
        }
    }

    impl<T: Clone, S: Clone> Clone for HashBag<T, S> {
        fn clone(&self) -> Self {
            HashBag(self.0.clone(), self.1)
        }
    }
}

/// The values of a bag, the same in another order, as many others, and words.
pub struct Given {
    values: Vec<u64>,
    shuffled: Vec<u64>,
    absent: Vec<u64>,
    words: Vec<String>,
}

impl Given {
    fn new(n: usize) -> Given {
        let mut x = 12345u64;
        let values: Vec<u64> = (0..n).map(|_| random(&mut x)).collect();
        let absent = (0..n).map(|_| random(&mut x)).collect();
        let mut shuffled = values.clone();
        for i in (1..n).rev() {
            shuffled.swap(i, random(&mut x) as usize % (i + 1));
        }
        let words = (0..WORDS).map(|_| format!("word{}", (random(&mut x) % 1000) * (random(&mut x) % 50))).collect();
        Given { values, shuffled, absent, words }
    }
}

const WORDS: usize = 100_000;

/// What is timed, in the order of `run`.
const WORKS: [&str; 12] =
    ["insert", "found", "absent", "again", "walk", "join", "clone", "walk into a bag", "remove", "words", "clone of words", "slowest insertion"];

/// The works with one of the three. They are written anew for each, since the three have no trait in common.
macro_rules! works {
    ($name:ident, $bag:ident) => {
        mod $name {
            use super::*;

            type Bag<T> = $bag::HashBag<T, State>;

            fn new<T: Eq + Hash + Clone>() -> Bag<T> {
                $bag::HashBag::with_hasher(State::default())
            }

            #[inline(never)]
            fn insert(values: &[u64]) -> Bag<u64> {
                let mut bag = new();
                for value in values {
                    bag.insert(*value);
                }
                bag
            }

            #[inline(never)]
            fn look(bag: &Bag<u64>, values: &[u64]) -> usize {
                let mut sum = 0;
                for value in values {
                    sum += bag.contains(value);
                }
                sum
            }

            #[inline(never)]
            fn again(bag: &mut Bag<u64>, values: &[u64]) {
                for value in values {
                    bag.insert(*value);
                }
            }

            #[inline(never)]
            fn walk(bag: &Bag<u64>) -> usize {
                let mut sum = 0usize;
                for (value, count) in bag.set_iter() {
                    sum = sum.wrapping_add(*value as usize ^ count);
                }
                sum
            }

            #[inline(never)]
            fn join(bag: &Bag<u64>, other: &Bag<u64>) -> usize {
                let mut sum = 0usize;
                for (value, here, there) in bag.outer_join(other) {
                    sum = sum.wrapping_add(*value as usize ^ here ^ there);
                }
                sum
            }

            #[inline(never)]
            fn clone<T: Eq + Hash + Clone>(bag: &Bag<T>) -> Bag<T> {
                bag.clone()
            }

            #[inline(never)]
            fn walk_into(bag: &Bag<u64>) -> Bag<u64> {
                let mut copy = new();
                for (value, _) in bag.set_iter() {
                    copy.insert(*value);
                }
                copy
            }

            #[inline(never)]
            fn remove(bag: &mut Bag<u64>, values: &[u64]) -> usize {
                let mut sum = 0usize;
                for value in values {
                    sum = sum.wrapping_add(bag.take_all(value).map_or(0, |(_, count)| count));
                }
                sum
            }

            #[inline(never)]
            fn words<'a>(words: &'a [String]) -> Bag<&'a str> {
                let mut bag = new();
                for word in words {
                    bag.insert(word.as_str());
                }
                bag
            }

            /// ns of the slowest of all insertions.
            #[inline(never)]
            fn slowest(values: &[u64]) -> f64 {
                let (mut bag, mut most) = (new(), 0f64);
                for value in values {
                    let began = now();
                    bag.insert(*value);
                    most = most.max(now() - began);
                }
                black_box(bag);
                most
            }

            fn timed<V>(times: usize, mut work: impl FnMut() -> V) -> f64 {
                let began = now();
                for _ in 0..times {
                    black_box(work());
                }
                (now() - began) / times as f64
            }

            pub struct All<'a> {
                given: &'a Given,
                bag: Bag<u64>,
                other: Bag<u64>,
                words: Bag<String>,
            }

            impl<'a> All<'a> {
                pub fn new(given: &'a Given) -> Self {
                    let n = given.values.len();
                    let mut other = insert(&given.values[n / 2..]);
                    again(&mut other, &given.absent[..n / 2]);
                    let mut words: Bag<String> = new();
                    for word in given.words.iter().take(n) {
                        words.insert(word.clone());
                    }
                    All { given, bag: insert(&given.values), other, words }
                }

                /// ns of one run of a work.
                pub fn run(&mut self, work: usize, times: usize) -> f64 {
                    let All { given, bag, other, words: texts } = self;
                    match work {
                        0 => timed(times, || insert(&given.values)),
                        1 => timed(times, || look(bag, &given.shuffled)),
                        2 => timed(times, || look(bag, &given.absent)),
                        3 => timed(times, || again(bag, &given.shuffled)),
                        4 => timed(times, || walk(bag)),
                        5 => timed(times, || join(bag, other)),
                        6 => timed(times, || clone(bag)),
                        7 => timed(times, || walk_into(bag)),
                        8 => {
                            let mut bags: Vec<_> = (0..times).map(|_| insert(&given.values)).collect();
                            let mut left = bags.iter_mut();
                            timed(times, || remove(left.next().unwrap(), &given.shuffled))
                        }
                        9 => timed(1, || words(&given.words)),
                        10 => timed(times, || clone(texts)),
                        _ => slowest(&given.values),
                    }
                }
            }
        }
    };
}

works!(ours, hashbag);
works!(theirs, original);
works!(of_map, map);

/// Times a work in turns, and prints a line.
fn compare(work: usize, n: usize, ours: &mut ours::All, theirs: &mut theirs::All, of_map: &mut of_map::All) {
    let (times, turns) = ((20_000 / n).max(1), if n > 200_000 { 15 } else { 101 });
    let turns = if WORKS[work] == "slowest insertion" { 15 } else { turns };
    let values = match WORKS[work] {
        "words" => WORDS,
        "slowest insertion" => 1,
        _ => n,
    };
    let mut least = [f64::INFINITY; 3];
    for turn in 0..turns {
        for i in 0..3 {
            let which = (turn + i) % 3;
            let taken = match which {
                0 => ours.run(work, times),
                1 => theirs.run(work, times),
                _ => of_map.run(work, times),
            };
            least[which] = least[which].min(taken / values as f64);
        }
    }
    let [ns, original, map] = least;
    let (of_original, of_map) = (ns / original, ns / map);
    println!("{n:>8} {:18} {ns:>12.2} ns  {of_original:6.2} of the original's  {of_map:6.2} of the map's", WORKS[work]);
}

fn main() {
    let (mut sizes, mut works) = (vec![], vec![]);
    for word in std::env::args().skip(1) {
        match word.parse::<usize>() {
            Ok(size) => sizes.push(size),
            Err(_) => works.push(WORKS.iter().position(|it| *it == word).expect("a size, or a work")),
        }
    }
    if sizes.is_empty() {
        sizes = vec![1_000, 10_000, 80_000, 100_000, 1_000_000];
    }
    if works.is_empty() {
        works = (0..WORKS.len()).collect();
    }
    for n in sizes {
        let given = Given::new(n);
        let (mut ours, mut theirs, mut of_map) = (ours::All::new(&given), theirs::All::new(&given), of_map::All::new(&given));
        for work in &works {
            compare(*work, n, &mut ours, &mut theirs, &mut of_map);
        }
    }
}
