//! States whose clones hash otherwise, and how often a call hashes.
use hashbag::HashBag;
use std::cell::Cell;
use std::hash::{BuildHasher, DefaultHasher, Hasher};
use std::rc::Rc;

/// A state that counts how often it hashes. A clone hashes alike if `keeps`, and otherwise if not; both count in one place.
struct Counting {
    key: u64,
    keeps: bool,
    hashed: Rc<Cell<usize>>,
}

impl Counting {
    fn new(keeps: bool) -> Counting {
        Counting { key: 0, keeps, hashed: Rc::default() }
    }
}

impl Clone for Counting {
    fn clone(&self) -> Counting {
        Counting { key: self.key + u64::from(!self.keeps), keeps: self.keeps, hashed: self.hashed.clone() }
    }
}

impl BuildHasher for Counting {
    type Hasher = DefaultHasher;

    fn build_hasher(&self) -> DefaultHasher {
        self.hashed.set(self.hashed.get() + 1);
        let mut hasher = DefaultHasher::new();
        hasher.write_u64(self.key);
        hasher
    }
}

/// How often a call hashes.
fn hashes<R>(state: &Counting, call: impl FnOnce() -> R) -> usize {
    let before = state.hashed.get();
    call();
    state.hashed.get() - before
}

/// A copy has its values, and waits as its original does; under a state whose clones hash otherwise each value is placed anew.
#[test]
fn copies() {
    for keeps in [true, false] {
        for n in [0, 1, 12, 25, 30, 1000] {
            let state = Counting::new(keeps);
            let mut bag = HashBag::with_limit(1_000_000, state.clone());
            (0..n).for_each(|v| {
                let _ = bag.insert_many(v, v + 1);
            });
            bag.remove(&3);
            let mut copy = None;
            let hashed = hashes(&state, || copy = Some(bag.clone()));
            let mut copy = copy.unwrap();
            assert_eq!(
                hashed,
                if n == 0 {
                    0
                } else if keeps {
                    2
                } else {
                    2 + bag.set_len()
                },
                "{keeps} {n}"
            );
            assert_eq!(copy.waiting(), if keeps { bag.waiting() } else { 0 });
            assert_eq!((copy.len(), copy.set_len(), copy.limit()), (bag.len(), bag.set_len(), 1_000_000));
            (0..=n).for_each(|v| assert_eq!(copy.contains(&v), bag.contains(&v), "{keeps} {n} {v}"));
            copy.insert(n);
            assert_eq!((copy.contains(&n), bag.contains(&n)), (1, 0));
        }
    }
}

/// What the documentation of each call says of hashes.
#[test]
fn counted() {
    let state = Counting::new(true);
    let mut bag = HashBag::with_hasher(state.clone());
    assert_eq!(hashes(&state, || bag.insert(String::from("a"))), 1);
    assert_eq!(hashes(&state, || bag.insert(String::from("a"))), 1);
    assert_eq!(hashes(&state, || bag.insert_key("b")), 1);
    assert_eq!(hashes(&state, || bag.contains("a")), 1);
    assert_eq!(hashes(&state, || bag.get("c").is_some()), 1);
    assert_eq!(hashes(&state, || bag.remove("a")), 1);
    assert_eq!(hashes(&state, || bag.remove_up_to("c", 2)), 1);
    assert_eq!(hashes(&state, || drop(bag.try_take("b"))), 1);
    assert_eq!(hashes(&state, || drop(bag.take_all("a"))), 1);
    assert_eq!(hashes(&state, || bag.replace(String::from("a"))), 1);
    assert_eq!(hashes(&state, || bag.set_count(String::from("a"), 4)), 2);
    assert_eq!(hashes(&state, || bag.entry(String::from("a")).or_insert()), 1);
    assert_eq!(hashes(&state, || bag.entry(String::from("d")).or_insert()), 2);
    assert_eq!(hashes(&state, || drop(bag.entry(String::from("a")).and_modify(|n| *n += 1))), 2);
    assert_eq!(hashes(&state, || drop(bag.entry(String::from("e")).and_modify(|n| *n += 1))), 1);
    assert_eq!(hashes(&state, || bag.iter().count() + bag.set_iter().count() + bag.max_count()), 0);
    assert_eq!(hashes(&state, || bag.retain(|_, n| n)), 0);
    // At the limit, too, `replace` hashes once.
    bag.set_limit(bag.len()).unwrap();
    assert_eq!(hashes(&state, || bag.try_replace(String::from("x")).unwrap_err()), 1);
}

/// An insertion of an absent value carries 16 slots.
#[test]
fn carried() {
    let state = Counting::new(true);
    let mut bag = HashBag::with_hasher(state.clone());
    for v in 0..100_000u64 {
        assert!(hashes(&state, || bag.insert(v)) <= 17);
    }
    assert_eq!(hashes(&state, || bag.insert(0)), 1);
}
