//! What a panic leaves of a bag, as the documentation of `HashBag` says it: each call is made again and again, and the first, second, third.. time
//! that a value's hash, `==`, clone or drop, or a closure, is called in it, that panics.
use hashbag::HashBag;
use std::cell::Cell;
use std::collections::BTreeMap;
use std::hash::{BuildHasherDefault, DefaultHasher, Hash, Hasher};
use std::panic::{AssertUnwindSafe, catch_unwind};

#[derive(Clone, Copy, Debug, PartialEq)]
enum Kind {
    Hash,
    Eq,
    Clone,
    Drop,
    Closure,
}

use Kind::{Clone as OfClone, Closure, Drop as OfDrop, Eq as OfEq, Hash as OfHash};

thread_local! {
    /// What panics, and after how many others of its kind.
    static PLANNED: Cell<Option<(Kind, usize)>> = const { Cell::new(None) };
    static LIVE: Cell<isize> = const { Cell::new(0) };
}

fn called(kind: Kind) {
    match PLANNED.get() {
        Some((planned, 0)) if planned == kind => {
            PLANNED.set(None);
            panic!("planned");
        }
        Some((planned, n)) if planned == kind => PLANNED.set(Some((planned, n - 1))),
        _ => (),
    }
}

/// A value whose code may panic.
struct Value(u64);

impl Value {
    fn new(number: u64) -> Value {
        LIVE.set(LIVE.get() + 1);
        Value(number)
    }
}

impl Clone for Value {
    fn clone(&self) -> Value {
        called(OfClone);
        Value::new(self.0)
    }
}

impl Drop for Value {
    fn drop(&mut self) {
        LIVE.set(LIVE.get() - 1);
        called(OfDrop);
    }
}

impl PartialEq for Value {
    fn eq(&self, other: &Value) -> bool {
        called(OfEq);
        self.0 == other.0
    }
}

impl Eq for Value {}

impl Hash for Value {
    fn hash<H: Hasher>(&self, to: &mut H) {
        called(OfHash);
        self.0.hash(to);
    }
}

type Bag = HashBag<Value, BuildHasherDefault<DefaultHasher>>;

/// Ends a call: what it returned is dropped.
fn ended<R>(_returned: R) {}

/// The counts of a bag.
type Counts = BTreeMap<u64, usize>;

fn counts(bag: &Bag) -> Counts {
    bag.set_iter().map(|(value, n)| (value.0, n)).collect()
}

/// A bag of the values below `n`, the value v as often as v + 1.
fn bag(n: u64) -> Bag {
    (0..n).map(|v| (Value::new(v), v as usize + 1)).collect()
}

/// Makes a call on a bag of `n` values, of which the first, second.. code of a kind panics. `left` compares what it leaves: it gets the counts before
/// and after, and how many others of the kind were called. Fails unless at least one panics.
fn leaves(what: &str, n: u64, kind: Kind, call: impl Fn(&mut Bag), left: impl Fn(&Counts, &Counts, usize) -> bool) {
    std::panic::set_hook(Box::new(|info| {
        if info.payload().downcast_ref() != Some(&"planned") {
            eprintln!("{info}");
        }
    }));
    for nth in 0..10_000 {
        let mut bag = bag(n);
        let before = counts(&bag);
        PLANNED.set(Some((kind, nth)));
        let ended = catch_unwind(AssertUnwindSafe(|| call(&mut bag)));
        PLANNED.set(None);
        if ended.is_ok() {
            assert!(nth > 0, "{what} of {n}: no {kind:?} panics");
            return;
        }
        let after = counts(&bag);
        assert!(left(&before, &after, nth), "{what} of {n}, {kind:?} {nth}: from {before:?} to {after:?}");
        assert_eq!(bag.len(), after.values().sum::<usize>(), "{what} of {n}, {kind:?} {nth}: the total");
        // It can be used on.
        bag.insert_many(Value::new(1_000_000), 5);
        assert!(after.keys().all(|v| bag.contains(&Value::new(*v)) == after[v]), "{what} of {n}, {kind:?} {nth}: a value isn't found");
        bag.clear();
        assert!(bag.is_empty());
    }
    panic!("{what}: no end");
}

/// The counts with one changed. A count of 0 is none.
fn with(before: &Counts, value: u64, n: usize) -> Counts {
    let mut counts = before.clone();
    if n == 0 {
        counts.remove(&value)
    } else {
        counts.insert(value, n)
    };
    counts
}

/// Sizes: with room, without, just grown, in a carry.
const SIZES: [u64; 6] = [5, 12, 13, 24, 25, 49];

#[test]
fn unchanged() {
    let same = |before: &Counts, after: &Counts, _: usize| before == after;
    for n in SIZES {
        leaves("insert", n, OfHash, |bag| ended(bag.insert(Value::new(n))), same);
        leaves("insert", n, OfEq, |bag| ended(bag.insert(Value::new(3))), same);
        leaves("contains", n, OfEq, |bag| ended(bag.contains(&Value::new(3))), same);
        leaves("remove", n, OfHash, |bag| ended(bag.remove(&Value::new(3))), same);
        leaves("take_all", n, OfEq, |bag| ended(bag.take_all(&Value::new(3))), same);
        leaves("set_count", n, OfHash, |bag| ended(bag.set_count(Value::new(3), 9)), same);
        leaves("replace", n, OfHash, |bag| ended(bag.replace(Value::new(n))), same);
        leaves("and_modify", n, Closure, |bag| ended(bag.entry(Value::new(3)).and_modify(|_| called(Closure))), same);
        leaves("reserve", n, OfHash, |bag| bag.reserve(500), same);
        leaves("clone", n, OfClone, |bag| ended(bag.clone()), same);
        leaves("clone", n, OfHash, |bag| ended(bag.clone()), same);
        leaves("difference", n, OfHash, |bag| ended(bag.difference(&self::bag(30)).count()), same);
        leaves(
            "shrink_to_fit",
            n,
            OfHash,
            |bag| {
                bag.reserve(500);
                bag.shrink_to_fit()
            },
            same,
        );
    }
    leaves("finish_carry", 25, OfHash, |bag| bag.finish_carry(), same);
}

/// A call that has changed a count when a drop panics has made its change.
#[test]
fn done() {
    for n in SIZES {
        leaves("insert", n, OfDrop, |bag| ended(bag.insert(Value::new(3))), |before, after, _| *after == with(before, 3, 5));
        leaves(
            "remove",
            n,
            OfDrop,
            |bag| {
                let key = Value::new(0);
                bag.remove(&key);
                std::mem::forget(key)
            },
            |before, after, _| *after == with(before, 0, 0),
        );
        leaves("replace", n, OfDrop, |bag| ended(bag.replace(Value::new(3))), |before, after, _| *after == with(before, 3, 1));
        leaves("set_count", n, OfDrop, |bag| ended(bag.set_count(Value::new(3), 9)), |before, after, _| *after == with(before, 3, 9));
        leaves("drain", n, OfDrop, |bag| ended(bag.drain()), |_, after, _| after.is_empty());
    }
}

/// A call that goes over all values has changed some of them, and not the others.
#[test]
fn in_part() {
    let some = |before: &Counts, after: &Counts, changed: &dyn Fn(usize) -> usize| {
        before.iter().all(|(v, n)| [*n, changed(*n)].contains(&after.get(v).copied().unwrap_or(0))) && after.keys().all(|v| before.contains_key(v))
    };
    for n in SIZES {
        leaves(
            "retain",
            n,
            Closure,
            |bag| {
                bag.retain(|_, n| {
                    called(Closure);
                    n / 2
                })
            },
            |before, after, nth| some(before, after, &|n| n / 2) && before.iter().filter(|(v, n)| after.get(v) != Some(n)).count() == nth,
        );
        leaves(
            "retain",
            n,
            OfDrop,
            |bag| bag.retain(|_, _| 0),
            |before, after, nth| some(before, after, &|_| 0) && before.len() - after.len() == nth + 1,
        );
        leaves("clear", n, OfDrop, |bag| bag.clear(), |before, after, _| some(before, after, &|_| 0));
        leaves("keep_common", n, OfHash, |bag| bag.keep_common(&self::bag(2)), |before, after, _| some(before, after, &|_| 0));
        leaves("take_away", n, OfEq, |bag| bag.take_away(&self::bag(3)), |before, after, _| some(before, after, &|_| 0));
        let raised =
            |before: &Counts, after: &Counts, _: usize| before.iter().all(|(v, n)| [*n, 2 * n].contains(&after[v])) && after.keys().all(|v| *v < 60);
        leaves("merge", n, OfEq, |bag| bag.merge(self::bag(60)), raised);
        leaves("keep_most", n, OfEq, |bag| bag.keep_most(self::bag(60)), raised);
        let items = || {
            (100..120).map(|v| {
                called(Closure);
                Value::new(v)
            })
        };
        leaves("extend", n, Closure, |bag| bag.extend(items()), |before, after, nth| after.len() == before.len() + nth);
    }
}

/// If nothing panics but a clone, each instance is dropped once.
#[test]
fn clones() {
    let before = LIVE.get();
    for n in SIZES {
        leaves("clone", n, OfClone, |bag| ended(bag.clone()), |_, _, _| true);
        leaves("extend", n, OfClone, |bag| bag.extend(self::bag(60).iter()), |_, _, _| true);
        assert_eq!(LIVE.get(), before);
    }
}
