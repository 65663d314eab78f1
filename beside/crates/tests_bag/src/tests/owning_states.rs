//! A hash state that has data of its own: each one is dropped once, and only a clone of the bag clones it.
use hashbag::{BagError, HashBag};
use std::alloc::{AllocError, Global};
use std::cell::Cell;
use std::hash::BuildHasher;
use std::process::Abort;
use std::test::Fail;
use tests_kit::calls::{clone_of, counts_of, insert};
use tests_kit::texts::is_text_of;
use tests_slots::constant::Answer;

// How many states are alive, and how many clones of them were asked for.
#[derive(Drop)]
struct States {
    alive: Cell<usize>,
    clones: Cell<usize>,
    refuses: Cell<bool>,
}

// Hashes every value to its number.
struct Owning<'a> {
    hash: u64,
    states: &'a States,
}

impl<'a> BuildHasher for Owning<'a> {
    type Hasher = Answer;

    ghost build_hasher = { λ s. record { hash = s.hash } };

    fn build_hasher(&self) -> Answer {
        Answer { hash: self.hash }
    }
}

impl<'a> Clone for Owning<'a> {
    fn clone(&self) -> Result<Owning<'a>, AllocError> {
        let states = self.states;
        states.clones.set(states.clones.get().wrapping_add(1));
        if states.refuses.get() {
            return Err(AllocError);
        }
        states.alive.set(states.alive.get().wrapping_add(1));
        Ok(Owning {
            hash: self.hash,
            states,
        })
    }
}

impl<'a> Drop for Owning<'a> {
    fn drop(self) {
        let Owning { hash: _, states } = self;
        states.alive.set(states.alive.get().wrapping_sub(1));
    }
}

// Checks how many states are alive, and how many clones were asked for.
fn are(rt: &impl Abort, call: &str, states: &States, alive: usize, clones: usize) {
    assert_eq!(rt;
        (states.alive.get(), states.clones.get()),
        (alive, clones),
        "after {call}"
    );
}

// The numbers from 1 to 25, all with the hash 61, in a bag in the middle of a carry.
fn carrying<'a>(alloc: Global, states: &'a States) -> Result<HashBag<u64, Owning<'a>>, Fail> {
    states.alive.set(states.alive.get().wrapping_add(1));
    let mut bag = HashBag::with_hasher(alloc, Owning { hash: 61, states });
    for value in 1..=25 {
        insert(&mut bag, value)?;
    }
    Ok(bag)
}

fn has_all(alloc: Global, bag: &HashBag<u64, Owning<'_>>) -> Result<(), Fail> {
    let counts = counts_of(alloc, bag, &[0, 1, 16, 17, 24, 25, 26])?;
    is_text_of("counts", counts.as_str(), "[0, 1, 1, 1, 1, 1, 0]")
}

fn builds_tables(bag: &mut HashBag<u64, Owning<'_>>) -> Result<(), BagError> {
    bag.reserve(100)?;
    bag.shrink_to_fit()
}

fn empties(bag: &mut HashBag<u64, Owning<'_>>) -> usize {
    let drained = bag.drain().count();
    bag.clear();
    drained
}

// Builds the tables of a bag anew, empties the bag, and drops it. Checks that a copy keeps its state.
fn is_used_up(
    rt: &impl Abort,
    alloc: Global,
    states: &States,
    mut bag: HashBag<u64, Owning<'_>>,
) -> Result<(), Fail> {
    builds_tables(&mut bag)?;
    has_all(alloc, &bag)?;
    assert_eq!(rt; empties(&mut bag), 25);
    are(rt, "tables", states, 2, 1);
    drop(bag);
    are(rt, "the drop of the first", states, 1, 1);
    Ok(())
}

// Makes a clone of a bag fail, and checks that the bag is unchanged.
fn clone_fails(
    rt: &impl Abort,
    alloc: Global,
    states: &States,
    bag: &HashBag<u64, Owning<'_>>,
) -> Result<(), Fail> {
    states.refuses.set(true);
    assert!(rt; clone_of(bag).is_err());
    are(rt, "a refused clone", states, 1, 2);
    has_all(alloc, bag)
}

// A copy of a bag that is then used up.
fn copy_of<'a>(
    rt: &impl Abort,
    alloc: Global,
    states: &'a States,
) -> Result<HashBag<u64, Owning<'a>>, Fail> {
    let bag = carrying(alloc, states)?;
    let copy = clone_of(&bag)?;
    are(rt, "a clone", states, 2, 1);
    has_all(alloc, &copy)?;
    is_used_up(rt, alloc, states, bag)?;
    Ok(copy)
}

// Checks that the bag has all values, also after a clone of it failed.
fn is_whole(
    rt: &impl Abort,
    alloc: Global,
    states: &States,
    bag: &HashBag<u64, Owning<'_>>,
) -> Result<(), Fail> {
    has_all(alloc, bag)?;
    clone_fails(rt, alloc, states, bag)
}

#[test]
fn states_are_dropped_once(rt: HostRuntime) -> Result<(), Fail> {
    let alloc = rt.alloc();
    let states = States {
        alive: Cell::new(0),
        clones: Cell::new(0),
        refuses: Cell::new(false),
    };
    let copy = copy_of(&rt, alloc, &states)?;
    is_whole(&rt, alloc, &states, &copy)?;
    assert_eq!(rt; copy.into_iter().count(), 25);
    are(&rt, "the walk of the second", &states, 0, 2);
    Ok(())
}
