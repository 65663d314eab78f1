//! Memory: each allocation refused in turn, and how much is allocated. A `try_` call then returns `Memory`, and the bag is unchanged.
use hashbag::{BagError, HashBag};
use std::alloc::{GlobalAlloc, Layout, System};
use std::cell::Cell;
use std::hash::{BuildHasherDefault, DefaultHasher};

/// The system's allocator, which refuses the allocation after LEFT others of this thread, and counts what it gives.
struct Refusing;

thread_local! {
    static LEFT: Cell<usize> = const { Cell::new(usize::MAX) };
    static BYTES: Cell<usize> = const { Cell::new(0) };
    static ZEROED: Cell<usize> = const { Cell::new(0) };
}

/// Whether this allocation is refused.
fn refuses(bytes: usize) -> bool {
    let left = LEFT.get();
    if left == 0 {
        return true;
    }
    if left != usize::MAX {
        LEFT.set(left - 1);
    }
    BYTES.set(BYTES.get() + bytes);
    false
}

// SAFETY: each call is the system's, or returns no memory.
unsafe impl GlobalAlloc for Refusing {
    unsafe fn alloc(&self, layout: Layout) -> *mut u8 {
        if refuses(layout.size()) { std::ptr::null_mut() } else { unsafe { System.alloc(layout) } }
    }

    unsafe fn alloc_zeroed(&self, layout: Layout) -> *mut u8 {
        if refuses(layout.size()) {
            return std::ptr::null_mut();
        }
        ZEROED.set(ZEROED.get() + layout.size());
        unsafe { System.alloc_zeroed(layout) }
    }

    unsafe fn realloc(&self, at: *mut u8, layout: Layout, size: usize) -> *mut u8 {
        if refuses(size) { std::ptr::null_mut() } else { unsafe { System.realloc(at, layout, size) } }
    }

    unsafe fn dealloc(&self, at: *mut u8, layout: Layout) {
        unsafe { System.dealloc(at, layout) }
    }
}

#[global_allocator]
static ALLOCATOR: Refusing = Refusing;

type Bag = HashBag<u64, BuildHasherDefault<DefaultHasher>>;

/// How many bytes a call allocates.
fn allocated<R>(call: impl FnOnce() -> R) -> (R, usize) {
    let before = BYTES.get();
    let made = call();
    (made, BYTES.get() - before)
}

/// A bag of the values below `n`, the value v as often as v + 1.
fn bag(n: u64) -> Bag {
    (0..n).map(|v| (v, v as usize + 1)).collect()
}

/// What is seen of a bag: its values in order, its total and its tables.
fn seen(bag: &Bag) -> (Vec<(u64, usize)>, usize, [usize; 3]) {
    (bag.sorted().into_iter().map(|(v, n)| (*v, n)).collect(), bag.len(), [bag.slots(), bag.waiting(), bag.room()])
}

/// Makes a call on a bag of `n` values with each of its allocations refused in turn; returns how many there are.
fn refused(what: &str, n: u64, call: impl Fn(&mut Bag, Bag) -> Result<(), BagError>) -> usize {
    for nth in 0..100 {
        let (mut bag, other) = (bag(n), bag(3 * n + 20));
        let before = seen(&bag);
        LEFT.set(nth);
        let result = call(&mut bag, other);
        LEFT.set(usize::MAX);
        if result.is_ok() {
            return nth;
        }
        assert_eq!(result, Err(BagError::Memory), "{what} {n} {nth}");
        assert_eq!(seen(&bag), before, "{what} {n} {nth}");
        bag.insert(n);
        assert_eq!(bag.len(), before.1 + 1, "{what} {n} {nth}");
    }
    panic!("{what}: no end");
}

#[test]
fn each_allocation_refused() {
    // Sizes without room, with room, and in a carry.
    for n in [0, 5, 12, 24, 25, 48, 49, 96] {
        let room = bag(n).room();
        let grows = if room == 0 { 2 } else { 0 };
        assert_eq!(refused("insert", n, |bag, _| bag.try_insert(n).map(drop)), grows, "insert {n}");
        assert_eq!(refused("insert_many", n, |bag, _| bag.try_insert_many(n, 3).map(drop)), grows, "insert_many {n}");
        assert_eq!(refused("replace", n, |bag, _| bag.try_replace(n).map(drop)), grows, "replace {n}");
        assert_eq!(refused("set_count", n, |bag, _| bag.try_set_count(n, 3).map(drop)), grows, "set_count {n}");
        assert_eq!(refused("or_insert", n, |bag, _| bag.entry(n).try_or_insert_many(3).map(drop)), grows, "or_insert {n}");
        assert_eq!(refused("reserve", n, |bag, _| bag.try_reserve(500)), 2, "reserve {n}");
        assert_eq!(refused("clone", n, |bag, _| bag.try_clone().map(drop)), if n == 0 { 0 } else { 2 + 2 * usize::from(bag(n).waiting() > 0) });
        assert!(refused("merge", n, |bag, other| bag.try_merge(other)) > 0, "merge {n}");
        assert!(refused("keep_most", n, |bag, other| bag.try_keep_most(other)) > 0, "keep_most {n}");
        refused("shrink_to_fit", n, |bag, _| bag.try_shrink_to_fit());
    }
    for nth in 0..2 {
        LEFT.set(nth);
        let made = Bag::try_with_capacity_and_hasher(20, Default::default());
        LEFT.set(usize::MAX);
        assert_eq!(made.err(), Some(BagError::Memory));
    }
}

/// Calls that allocate nothing.
#[test]
fn none() {
    let (mut bag, other) = (bag(25), bag(40));
    LEFT.set(0);
    assert_eq!((bag.contains(&3), bag.get(&30).is_none(), bag.remove(&3), bag.remove_up_to(&4, 2)), (4, true, 4, 3));
    assert_eq!((bag.take_all(&5), bag.try_take(&0)), (Some((5, 6)), Ok(0)));
    assert_eq!(bag.try_insert(7), Ok(8));
    assert!(bag.iter().count() > 0 && bag.outer_join(&other).count() == 40 && bag.difference(&other).count() == 1);
    bag.keep_common(&other);
    bag.take_away(&other);
    bag.retain(|_, n| n);
    bag.finish_carry();
    bag.clear();
    drop(bag.drain());
    LEFT.set(usize::MAX);
    assert!(bag.is_empty());
}

/// A slot takes a byte for its tag, and room for a value with its count. Tags come zeroed, so a growth writes none.
#[test]
fn bytes() {
    let (bag, bytes) = allocated(|| Bag::with_capacity_and_hasher(700_000, Default::default()));
    assert_eq!((bag.slots(), bytes / bag.slots()), (1 << 20, 17));
    let mut bag = self::bag(12);
    let before = ZEROED.get();
    let (_, bytes) = allocated(|| bag.insert(12));
    assert!(ZEROED.get() - before >= 32 && bytes < 32 * 17 + 64, "{bytes} bytes, {} of them zeroed", ZEROED.get() - before);
}

/// A call for few of the most common values allocates a list of few.
#[test]
fn most_common() {
    let bag: Bag = (0..30_000).collect();
    let (few, bytes) = allocated(|| bag.most_common(10).len());
    assert!(few == 10 && bytes < 10_000, "{bytes} bytes for {few}");
    let (all, bytes) = allocated(|| bag.most_common(usize::MAX).len());
    assert!(all == 30_000 && bytes >= 480_000, "{bytes} bytes for {all}");
}
