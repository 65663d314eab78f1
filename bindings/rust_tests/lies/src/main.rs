//! Values whose `==`, `Hash`, `Clone` and `Drop`, and closures and iterators, lie, change or panic: nothing may be read that isn't there, nothing
//! dropped twice, and the total stays the sum of the counts.
//!
//! `lies SEED ROUNDS CALLS [nolie] [nopanic]`, best with `--features check`, which tests each access to a cell. It ends with a status that isn't 0 if
//! something is wrong: it aborts at once, or it has met a panic that was neither planned nor one that a call names.
use hashbag::{Drain, HashBag, IntoIter};
use std::cell::{Cell, RefCell};
use std::collections::HashSet;
use std::hash::{BuildHasher, DefaultHasher, Hash, Hasher};
use std::panic::{AssertUnwindSafe, catch_unwind};
use std::process::abort;

thread_local! {
    static RANDOM: Cell<u64> = const { Cell::new(1) };
    /// One in so many comparisons and hashes lies; 0: none.
    static LIE: Cell<u64> = const { Cell::new(0) };
    /// One in so many calls of a value's own code panics; 0: none.
    static PANIC: Cell<u64> = const { Cell::new(0) };
    /// The instances that live.
    static LIVE: RefCell<HashSet<u64>> = RefCell::default();
    static NEXT: Cell<u64> = const { Cell::new(0) };
    /// The last call's number.
    static CALL: Cell<u64> = const { Cell::new(0) };
}

fn random() -> u64 {
    RANDOM.with(|x| {
        let v = x.get().wrapping_mul(6364136223846793005).wrapping_add(1442695040888963407);
        x.set(v);
        (v ^ (v >> 31)).wrapping_mul(0x9E3779B97F4A7C15) >> 8
    })
}

fn below(n: u64) -> u64 {
    random() % n
}

fn one_in(n: u64) -> bool {
    n > 0 && below(n) == 0
}

fn trouble() {
    if one_in(PANIC.get()) && !std::thread::panicking() {
        panic!("planned");
    }
}

fn wrong(what: &str) -> ! {
    eprintln!("WRONG: {what}, call {}", CALL.get());
    abort()
}

struct Value {
    id: u64,
    value: u64,
    /// A read of freed or empty memory would hardly find this.
    text: Box<u64>,
}

impl Value {
    fn new(value: u64) -> Value {
        let id = NEXT.replace(NEXT.get() + 1);
        LIVE.with(|live| live.borrow_mut().insert(id));
        Value { id, value, text: Box::new(id ^ value) }
    }

    fn look(&self) -> u64 {
        if !LIVE.with(|live| live.borrow().contains(&self.id)) || *self.text != self.id ^ self.value {
            wrong("a value that isn't there");
        }
        self.value
    }
}

impl Clone for Value {
    fn clone(&self) -> Value {
        trouble();
        Value::new(if one_in(LIE.get()) { random() } else { self.look() })
    }
}

impl Drop for Value {
    fn drop(&mut self) {
        self.look();
        LIVE.with(|live| live.borrow_mut().remove(&self.id));
        trouble();
    }
}

impl PartialEq for Value {
    fn eq(&self, other: &Value) -> bool {
        trouble();
        let same = self.look() == other.look();
        if one_in(LIE.get()) { below(2) == 0 } else { same }
    }
}

impl Eq for Value {}

impl PartialOrd for Value {
    fn partial_cmp(&self, other: &Value) -> Option<std::cmp::Ordering> {
        Some(self.cmp(other))
    }
}

impl Ord for Value {
    fn cmp(&self, other: &Value) -> std::cmp::Ordering {
        trouble();
        if one_in(LIE.get()) { random().cmp(&random()) } else { self.look().cmp(&other.look()) }
    }
}

impl Hash for Value {
    fn hash<H: Hasher>(&self, to: &mut H) {
        trouble();
        (if one_in(LIE.get()) { random() } else { self.look() }).hash(to);
    }
}

#[derive(Default)]
struct State {
    /// Few hashes, so that paths are long.
    mask: u64,
}

impl State {
    fn new() -> State {
        State { mask: [u64::MAX, u64::MAX, 7 | 7 << 57, 0][below(4) as usize] }
    }
}

impl Clone for State {
    fn clone(&self) -> State {
        trouble();
        if one_in(LIE.get()) { State::new() } else { State { mask: self.mask } }
    }
}

struct Masked(DefaultHasher, u64);

impl Hasher for Masked {
    fn write(&mut self, bytes: &[u8]) {
        self.0.write(bytes);
    }

    fn finish(&self) -> u64 {
        trouble();
        self.0.finish() & self.1
    }
}

impl BuildHasher for State {
    type Hasher = Masked;

    fn build_hasher(&self) -> Masked {
        trouble();
        Masked(DefaultHasher::new(), self.mask)
    }
}

/// An iterator that may panic, say a wrong number of items, and end before.
struct Items(u64, u64);

impl Iterator for Items {
    type Item = Value;

    fn next(&mut self) -> Option<Value> {
        trouble();
        self.0 = self.0.checked_sub(1)?;
        Some(Value::new(below(self.1)))
    }

    fn size_hint(&self) -> (usize, Option<usize>) {
        trouble();
        (below(9) as usize, Some(below(9) as usize))
    }
}

type Bag = HashBag<Value, State>;

/// The total is the sum of the counts, and no count is 0; also the walks say how long they are.
fn sound(bag: &Bag) {
    let (mut sum, mut distinct) = (0usize, 0);
    for (value, count) in bag.set_iter() {
        value.look();
        sum += count;
        distinct += 1;
        if count == 0 {
            wrong("a count of 0");
        }
    }
    if sum != bag.len() || distinct != bag.set_len() || bag.iter().len() != sum {
        wrong("the total");
    }
    if sum < 5000
        && bag
            .iter()
            .map(|v| {
                v.look();
                1
            })
            .sum::<usize>()
            != sum
        || bag.set_len() + bag.room() != bag.capacity()
        || bag.capacity() * 4 > bag.slots() * 3
    {
        wrong("the walk");
    }
}

fn call(b: &mut Bag, c: &mut Bag, kept: &mut Option<IntoIter<Value>>, range: u64) {
    let v = below(range);
    let n = below(4) as usize;
    match below(64) {
        0..=13 => drop(b.try_insert(Value::new(v))),
        14 | 15 => drop(b.try_insert_many(Value::new(v), n)),
        16 => drop(b.insert_key(&Value::new(v))),
        17 | 18 => drop(b.remove(&Value::new(v))),
        19 | 20 => drop(b.remove_up_to(&Value::new(v), n)),
        21 | 22 => drop(b.try_take(&Value::new(v))),
        23 | 24 => drop(b.take_all(&Value::new(v))),
        25 => drop(b.try_replace(Value::new(v))),
        26 => drop(b.try_set_count(Value::new(v), n)),
        27 => drop(
            b.entry(Value::new(v))
                .and_modify(|m| {
                    trouble();
                    *m = n
                })
                .or_insert(),
        ),
        28 => drop(b.entry(Value::new(v)).try_and_modify(|m| {
            *m = (random() as usize) << below(60);
            trouble()
        })),
        29 => drop(b.entry(Value::new(v)).try_or_insert_many(n)),
        30 => drop(b.entry(Value::new(v)).value().look()),
        31 => std::mem::forget(b.entry(Value::new(v))),
        32..=35 => drop(c.try_insert(Value::new(v))),
        36 => {
            let _ = (
                b.outer_join(c).map(|j| j.0.look() as u128).sum::<u128>(),
                b.difference(c).count(),
                b.not_in(c).count(),
                b.signed_difference(c).count(),
            );
        }
        37 => drop((b.contains_all(c), b.is_disjoint(c), b.max_count(), b == c)),
        38 if one_in(10) => b.retain(|v, m| {
            v.look();
            trouble();
            if one_in(3) { 0 } else { m.saturating_sub(n) }
        }),
        39 if one_in(10) => b.clear(),
        40 if one_in(10) => {
            let mut walk = b.drain();
            for _ in 0..below(20) {
                walk.next();
            }
        }
        41 if one_in(10) => {
            let mut walk: Drain<'_, Value> = b.drain();
            walk.next();
            std::mem::forget(walk);
        }
        42 if one_in(8) => *c = b.clone(),
        43 if one_in(8) => c.clone_from(b),
        44 if one_in(4) => drop(b.try_shrink_to_fit()),
        45 if one_in(4) => drop(b.try_reserve(below(300) as usize)),
        46 => b.finish_carry(),
        47 if one_in(10) => *kept = Some(std::mem::replace(b, HashBag::with_hasher(State::new())).into_iter()),
        48 => drop(kept.as_mut().and_then(|walk| {
            for _ in 0..below(9) {
                walk.next().map(|(v, _)| v.look());
            }
            walk.next()
        })),
        49 => drop(kept.take()),
        50 => b.extend(Items(below(30), range)),
        51 => b.extend(Items(below(30), range).map(|v| (v, n))),
        52 => {
            let list: Vec<Value> = Items(below(20), range).collect();
            b.extend(&list);
            b.extend(list.iter().map(|v| (v, n)));
        }
        53 if one_in(4) => drop(b.try_merge(std::mem::replace(c, HashBag::with_hasher(State::new())))),
        54 if one_in(4) => drop(b.try_keep_most(std::mem::replace(c, HashBag::with_hasher(State::new())))),
        55 if one_in(4) => b.keep_common(c),
        56 if one_in(4) => b.take_away(c),
        57 if one_in(4) => drop((b.sorted().iter().map(|p| p.0.look()).max(), b.most_common(n * 3).len(), b.iter().clone().count())),
        58 => drop(b.set_limit(b.len().saturating_add([0, 1, below(2000) as usize, usize::MAX][below(4) as usize]))),
        59 => {
            let mut walk = b.iter();
            for _ in 0..below(20) {
                walk.next().map(Value::look);
            }
            let _ = (walk.clone().take(1000).map(Value::look).max(), walk.len());
        }
        60 if one_in(20) => *b = HashBag::with_capacity_and_hasher(below(100) as usize, State::new()),
        61 if one_in(20) => std::mem::swap(b, c),
        62 if one_in(40) => *c = Items(below(50), range).collect(),
        _ => drop((b.get(&Value::new(v)).map(|p| p.0.look()), b.contains(&Value::new(v)))),
    }
}

fn main() {
    let arguments: Vec<String> = std::env::args().skip(1).collect();
    let number = |k: usize, or: u64| arguments.get(k).map_or(or, |s| s.parse().unwrap());
    let (seed, rounds, many) = (number(0, 1), number(1, 100), number(2, 3000));
    let without = |what: &str| arguments.iter().any(|a| a == what);
    let unplanned = std::sync::Arc::new(std::sync::atomic::AtomicU64::new(0));
    let counter = unplanned.clone();
    std::panic::set_hook(Box::new(move |info| {
        let text = info.to_string();
        if !text.contains("planned") && !text.contains("total order") && !text.contains("pass the bag") {
            if text.contains("CELL") || text.contains("OVER A VALUE") {
                eprintln!("{}", std::backtrace::Backtrace::force_capture());
                wrong(&text);
            }
            if counter.fetch_add(1, std::sync::atomic::Ordering::Relaxed) < 20 {
                println!("call {}: {text}", CALL.get());
            }
        }
    }));
    let (mut panics, mut leaked) = (0u64, 0u64);
    for round in 0..rounds {
        RANDOM.set(seed.wrapping_mul(1000).wrapping_add(round).wrapping_mul(0x9E3779B97F4A7C15) | 1);
        LIE.set(if without("nolie") { 0 } else { [0, 2, 5, 50, 500][round as usize % 5] });
        PANIC.set(if without("nopanic") { 0 } else { [0, 30, 300, 3000][(round / 5) as usize % 4] });
        LIVE.with(|live| live.borrow_mut().clear());
        let range = [4, 40, 400, 4000][(round / 20) as usize % 4];
        let (mut b, mut c, mut kept) = (HashBag::with_hasher(State { mask: u64::MAX }), HashBag::with_hasher(State { mask: u64::MAX }), None);
        for _ in 0..many {
            CALL.set(CALL.get() + 1);
            if catch_unwind(AssertUnwindSafe(|| call(&mut b, &mut c, &mut kept, range))).is_err() {
                panics += 1;
            }
            if one_in(16) {
                sound(&b);
                sound(&c);
            }
        }
        PANIC.set(0);
        sound(&b);
        drop((b, c, kept));
        leaked += LIVE.with(|live| live.borrow().len()) as u64;
    }
    let unplanned = unplanned.load(std::sync::atomic::Ordering::Relaxed);
    println!("{} calls, {panics} panicked, {unplanned} of these not planned, {leaked} values leaked", rounds * many);
    // A run in which nothing was tried shows nothing.
    assert!(rounds * many > 0 && (without("nopanic") || panics > 0), "nothing was tried");
    std::process::exit(i32::from(unplanned > 0));
}
