//! Values whose clones fail, at each clone in turn, on a bag in the middle of a carry. They count their drops, so that
//! after each refusal no value is left over and none was dropped twice.
ghost use Rattle.std.specs.Prelude.{◌≡◌, ◌==◌};
ghost use Rattle.std.proofs.Common.{rules};
ghost use Rattle.std.specs.Cmp.Rules.{comparing, hashing};
ghost use Rattle.std.specs.Hash as fed;

use hashbag::{BagError, FixedState, HashBag};
use std::alloc::{AllocError, Global};
use std::cell::Cell;
use std::hash::{BuildHasher, Hash, Hasher};
use std::process::Abort;
use std::test::Fail;
use tests_kit::calls::insert;
use tests_kit::texts::{count, debug_of, halves, is_text, is_text_of};
use tests_kit::{OneState, rows_of};

// The number of the clone that fails, and what an extend by 26, 27, 28 and 27 returns and leaves: the total, the distinct values,
// the tables, and how many values are alive but for the four given ones.
const EXTENDS: &str = "
    1 = Err(Memory), 25 of 25 in (64, 16, 23), 25 alive
    2 = Err(Memory), 26 of 26 in (64, 0, 22), 26 alive
    3 = Err(Memory), 27 of 27 in (64, 0, 21), 27 alive
    4 = Err(Memory), 28 of 28 in (64, 0, 20), 28 alive
    5 = Ok(()), 29 of 28 in (64, 0, 20), 28 alive";

// The same of an extend by as many of each value as its key, but 28 with 0, which is not cloned.
const EXTENDS_MANY: &str = "
    1 = Err(Memory), 25 of 25 in (64, 16, 23), 25 alive
    2 = Err(Memory), 51 of 26 in (64, 0, 22), 26 alive
    3 = Err(Memory), 78 of 27 in (64, 0, 21), 27 alive
    4 = Ok(()), 105 of 27 in (64, 0, 21), 27 alive";

// What becomes of values: how many are alive, how many were cloned, and which clone fails.
#[derive(Drop)]
struct Lives {
    alive: Cell<usize>,
    clones: Cell<usize>,
    refused: usize,
}

impl Lives {
    fn new(refused: usize) -> Lives {
        Lives {
            alive: Cell::new(0),
            clones: Cell::new(0),
            refused,
        }
    }

    fn value(&self, key: u64) -> Costly<'_> {
        self.alive.set(self.alive.get().wrapping_add(1));
        Costly { key, lives: self }
    }
}

// A number whose clones may fail.
struct Costly<'a> {
    key: u64,
    lives: &'a Lives,
}

impl<'a> PartialEq for Costly<'a> {
    ghost eq = { λ a b. a.key == b.key };

    ghost laws = { Prim.search (comparing, rules) };

    fn eq(&self, other: &Costly<'a>) -> bool {
        self.key == other.key
    }
}

impl<'a> Eq for Costly<'a> {
    ghost laws = { Prim.search (comparing, rules) };
}

impl<'a> Hash for Costly<'a> {
    ghost hash_input = { λ a. fed.u64 a.key };

    ghost respects_eq = { Prim.search (hashing, rules) };

    fn hash<H: Hasher>(&self, state: &mut H) {
        self.key.hash(state);
    }
}

impl<'a> Clone for Costly<'a> {
    ghost is_clone = { λ a b. b ≡ a };

    fn clone(&self) -> Result<Costly<'a>, AllocError> {
        let number = self.lives.clones.get().wrapping_add(1);
        self.lives.clones.set(number);
        if number == self.lives.refused {
            return Err(AllocError);
        }
        self.lives.alive.set(self.lives.alive.get().wrapping_add(1));
        Ok(Costly {
            key: self.key,
            lives: self.lives,
        })
    }
}

impl<'a> Drop for Costly<'a> {
    fn drop(self) {
        let Costly { key: _, lives } = self;
        lives.alive.set(lives.alive.get().wrapping_sub(1));
    }
}

// The keys from 1 to 25, in a bag in the middle of a carry.
fn carrying<'a, S: BuildHasher + Drop>(
    alloc: Global,
    state: S,
    lives: &'a Lives,
) -> Result<HashBag<Costly<'a>, S>, Fail> {
    let mut bag = HashBag::with_hasher(alloc, state);
    for key in 1..=25 {
        insert(&mut bag, lives.value(key))?;
    }
    Ok(bag)
}

fn clone<'a, S: BuildHasher + Clone + Drop>(
    bag: &HashBag<Costly<'a>, S>,
) -> Result<HashBag<Costly<'a>, S>, BagError> {
    bag.clone()
}

fn extend_refs<'a, S: BuildHasher + Drop>(
    bag: &mut HashBag<Costly<'a>, S>,
    values: &[Costly<'a>],
) -> Result<(), BagError> {
    bag.extend_refs(values.iter())
}

// How often each value is given, with its number.
fn times_of(value: &Costly<'_>) -> usize {
    if value.key == 28 {
        0
    } else {
        value.key as usize
    }
}

fn extend_refs_many<'a, S: BuildHasher + Drop>(
    bag: &mut HashBag<Costly<'a>, S>,
    values: &[Costly<'a>],
) -> Result<(), BagError> {
    bag.extend_refs_many(values.iter().map(|value| (value, times_of(value))))
}

// What a bag has, and in which tables.
fn state_of<'a, S: BuildHasher + Drop>(
    alloc: Global,
    bag: &HashBag<Costly<'a>, S>,
) -> Result<String, Fail> {
    let (len, set_len) = (bag.len(), bag.set_len());
    let tables = (bag.slots(), bag.waiting(), bag.room());
    Ok(format!(in alloc; "{len} of {set_len} in {tables:?}")?)
}

// Checks that the bag has each key from 1 to 25 once.
fn has_all<'a, S: BuildHasher + Drop>(
    bag: &HashBag<Costly<'a>, S>,
    lives: &'a Lives,
) -> Result<(), Fail> {
    for key in 1..=25 {
        let count = bag.contains(&lives.value(key));
        if count != 1 {
            return Err(Fail::new(format_args!("{count} of {key}")));
        }
    }
    Ok(())
}

// Extends a bag by clones of four values, which are dropped then.
fn extend_by<'a, S: BuildHasher + Drop>(
    bag: &mut HashBag<Costly<'a>, S>,
    lives: &'a Lives,
    many: bool,
) -> Result<(), BagError> {
    let values = [
        lives.value(26),
        lives.value(27),
        lives.value(28),
        lives.value(27),
    ];
    if many {
        extend_refs_many(bag, &values)
    } else {
        extend_refs(bag, &values)
    }
}

// What an extend returns and leaves.
fn extend_and_tell<'a, S: BuildHasher + Drop>(
    alloc: Global,
    bag: &mut HashBag<Costly<'a>, S>,
    lives: &'a Lives,
    many: bool,
) -> Result<String, Fail> {
    let answer = extend_by(bag, lives, many);
    let alive = lives.alive.get();
    has_all(bag, lives)?;
    let state = state_of(alloc, bag)?;
    Ok(format!(in alloc; "{answer:?}, {state}, {alive} alive")?)
}

fn extended<S: BuildHasher + Drop>(
    alloc: Global,
    state: S,
    lives: &Lives,
    many: bool,
) -> Result<String, Fail> {
    let mut bag = carrying(alloc, state, lives)?;
    extend_and_tell(alloc, &mut bag, lives, many)
}

fn is_extended<S: BuildHasher + Drop>(
    alloc: Global,
    state: S,
    row: &str,
    many: bool,
) -> Result<(), Fail> {
    let (refused, want) = halves(row, " = ")?;
    let lives = Lives::new(count(refused)?);
    let got = extended(alloc, state, &lives, many)?;
    is_text(got.as_str(), want)?;
    is_text_of(
        "alive after it",
        debug_of(alloc, &lives.alive.get())?.as_str(),
        "0",
    )
}

// Clones the bag. Checks that the clone is equal, or fails with `Memory`, and that all clones of values that were made are then dropped.
fn clones_live<'a, S: BuildHasher + Clone + Drop>(
    rt: &impl Abort,
    bag: &HashBag<Costly<'a>, S>,
    lives: &Lives,
    refused: usize,
) {
    match clone(bag) {
        Ok(copy) => {
            assert!(rt; copy == *bag && refused == 26, "clone {refused}");
            assert_eq!(rt; lives.alive.get(), 50);
        }
        Err(error) => assert!(rt;
            error == BagError::Memory && refused <= 25,
            "clone {refused}"
        ),
    }
    assert_eq!(rt; lives.alive.get(), 25, "after clone {refused}");
}

// Checks that the bag is as before a clone, which may fail.
fn stays_as_before<'a, S: BuildHasher + Clone + Drop>(
    rt: &impl Abort,
    alloc: Global,
    bag: &HashBag<Costly<'a>, S>,
    lives: &'a Lives,
    refused: usize,
) -> Result<(), Fail> {
    clones_live(rt, bag, lives, refused);
    has_all(bag, lives)?;
    let state = state_of(alloc, bag)?;
    is_text_of("a source", state.as_str(), "25 of 25 in (64, 16, 23)")
}

// Checks that a bag is as before a clone, which may fail, and that the bag then drops its values.
fn is_cloned<S: BuildHasher + Clone + Drop>(
    rt: &impl Abort,
    alloc: Global,
    state: S,
    refused: usize,
) -> Result<(), Fail> {
    let lives = Lives::new(refused);
    {
        let bag = carrying(alloc, state, &lives)?;
        stays_as_before(rt, alloc, &bag, &lives, refused)?;
    }
    assert_eq!(rt; lives.alive.get(), 0, "after clone {refused}");
    Ok(())
}

fn clones_under<S: BuildHasher + Copy>(
    rt: &impl Abort,
    alloc: Global,
    state: S,
) -> Result<(), Fail> {
    for row in rows_of(alloc, EXTENDS)? {
        row.tested(is_extended(alloc, state, row.text, false))?;
    }
    for row in rows_of(alloc, EXTENDS_MANY)? {
        row.tested(is_extended(alloc, state, row.text, true))?;
    }
    for refused in 1..=26 {
        is_cloned(rt, alloc, state, refused)?;
    }
    Ok(())
}

#[test]
fn clones_are_refused_in_turn(rt: HostRuntime) -> Result<(), Fail> {
    clones_under(&rt, rt.alloc(), FixedState::new())?;
    clones_under(&rt, rt.alloc(), OneState)
}
