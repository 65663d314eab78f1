//! How many clones are made of values: of those that are extended with, and of those in a bag that is cloned.
ghost use Rattle.std.specs.Prelude.{◌≡◌, ◌==◌};
ghost use Rattle.std.proofs.Common.{rules};
ghost use Rattle.std.specs.Cmp.Rules.{comparing, hashing};
ghost use Rattle.std.specs.Hash as fed;

use hashbag::{BagError, FixedState, HashBag};
use std::alloc::{AllocError, Global};
use std::cell::Cell;
use std::hash::{BuildHasher, Hash, Hasher};
use std::test::Fail;
use tests_kit::texts::{counts, halves, is_text};
use tests_kit::{OneState, rows_of};

// Pairs of a value and a number, and what extending with them gives. Each pair takes one clone, and none if its number is 0
// or the total would pass its end.
const ROWS: &str = "
    1:2 2:0 3:5 = Ok(()) after 2 clones
    1:0 2:0 = Ok(()) after 0 clones
    1:1 1:1 1:1 = Ok(()) after 3 clones
    1:18446744073709551615 2:0 2:1 3:1 = Err(TooMany) after 1 clones";

// A number whose clones are counted.
#[derive(Drop)]
struct Watched<'a> {
    number: u64,
    clones: &'a Cell<u64>,
}

impl<'a> PartialEq for Watched<'a> {
    ghost eq = { λ a b. a.number == b.number };

    ghost laws = { Prim.search (comparing, rules) };

    fn eq(&self, other: &Watched<'a>) -> bool {
        self.number == other.number
    }
}

impl<'a> Eq for Watched<'a> {
    ghost laws = { Prim.search (comparing, rules) };
}

impl<'a> Hash for Watched<'a> {
    ghost hash_input = { λ a. fed.u64 a.number };

    ghost respects_eq = { Prim.search (hashing, rules) };

    fn hash<H: Hasher>(&self, state: &mut H) {
        self.number.hash(state);
    }
}

impl<'a> Clone for Watched<'a> {
    ghost is_clone = { λ a b. b.number ≡ a.number };

    fn clone(&self) -> Result<Watched<'a>, AllocError> {
        self.clones.set(self.clones.get().saturating_add(1));
        Ok(Watched {
            number: self.number,
            clones: self.clones,
        })
    }
}

fn watched_pairs<'a>(
    alloc: Global,
    pairs: &[(u64, usize)],
    clones: &'a Cell<u64>,
) -> Result<Vec<(Watched<'a>, usize)>, Fail> {
    let mut list = Vec::new(alloc);
    for (number, n) in pairs {
        let number = *number;
        list.push((Watched { number, clones }, *n))?;
    }
    Ok(list)
}

fn extend_refs_many<'a, S: BuildHasher + Drop>(
    alloc: Global,
    state: S,
    pairs: &[(Watched<'a>, usize)],
) -> Result<(), BagError> {
    let mut bag = HashBag::with_hasher(alloc, state);
    bag.extend_refs_many(pairs.iter().map(|pair| (&pair.0, pair.1)))
}

fn answer<S: BuildHasher + Drop>(alloc: Global, state: S, text: &str) -> Result<String, Fail> {
    let clones = Cell::new(0);
    let pairs = watched_pairs(alloc, counts(alloc, text)?.as_slice(), &clones)?;
    let answered = extend_refs_many(alloc, state, pairs.as_slice());
    let made = clones.get();
    Ok(format!(in alloc; "{answered:?} after {made} clones")?)
}

fn is_answered<S: BuildHasher + Drop>(alloc: Global, state: S, row: &str) -> Result<(), Fail> {
    let (text, want) = halves(row, " = ")?;
    is_text(answer(alloc, state, text)?.as_str(), want)
}

fn clones_under<S: BuildHasher + Copy>(alloc: Global, state: S) -> Result<(), Fail> {
    for row in rows_of(alloc, ROWS)? {
        row.tested(is_answered(alloc, state, row.text))?;
    }
    Ok(())
}

// How many distinct values a bag has, with no table, with one, and with a second one that still waits.
const SIZES: [u64; 4] = [0, 1, 12, 25];

fn bag_of<'a, S: BuildHasher + Drop>(
    alloc: Global,
    state: S,
    size: u64,
    clones: &'a Cell<u64>,
) -> Result<HashBag<Watched<'a>, S>, Fail> {
    let mut bag = HashBag::with_hasher(alloc, state);
    for number in 0..size {
        let _ = bag.insert_many(Watched { number, clones }, 3)?;
    }
    Ok(bag)
}

fn clone_of<'a, S: BuildHasher + Clone + Drop>(
    bag: &HashBag<Watched<'a>, S>,
) -> Result<HashBag<Watched<'a>, S>, BagError> {
    bag.clone()
}

// Checks that a clone of a bag makes one clone of each distinct value, also of those that wait.
fn makes_one_of_each<'a, S: BuildHasher + Clone + Drop>(
    bag: &HashBag<Watched<'a>, S>,
    size: u64,
    clones: &'a Cell<u64>,
) -> Result<(), Fail> {
    let before = clones.get();
    let clone = clone_of(bag)?;
    if (before, clones.get()) != (0, size) || clone.len() != bag.len() {
        return Err(Fail::new(format_args!("other clones for {size} values")));
    }
    Ok(())
}

fn bags_under<S: BuildHasher + Copy + Clone>(alloc: Global, state: S) -> Result<(), Fail> {
    for size in &SIZES {
        let clones = Cell::new(0);
        let bag = bag_of(alloc, state, *size, &clones)?;
        makes_one_of_each(&bag, *size, &clones)?;
    }
    Ok(())
}

#[test]
fn clones_of_bags_are_counted(rt: HostRuntime) -> Result<(), Fail> {
    bags_under(rt.alloc(), FixedState::new())?;
    bags_under(rt.alloc(), OneState)
}

#[test]
fn clones_are_counted(rt: HostRuntime) -> Result<(), Fail> {
    clones_under(rt.alloc(), FixedState::new())?;
    clones_under(rt.alloc(), OneState)
}
