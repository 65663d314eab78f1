//! Bags of the values 5, 6 and 7.
use crate::checks::{Refusals, Wrong, check};
use hashbag::HashBag;
use std::alloc::Global;
use std::hash::{BuildHasher, Hash};

/// Counts of 5, 6 and 7.
pub type Counts = (usize, usize, usize);

/// Checks the counts of 5, 6 and 7, which are all that the bag has.
pub fn has_counts(bag: &HashBag<u64>, counts: Counts, wrong: &'static str) -> Result<(), Wrong> {
    let (five, six, seven) = counts;
    for (value, count) in [(5, five), (6, six), (7, seven)] {
        check(bag.contains(&value) == count, wrong)?;
    }
    let total = five.saturating_add(six).saturating_add(seven);
    check(bag.len() == total, wrong)
}

/// Inserts two of a value, checks the count before, and returns whether they were inserted.
pub fn insert_two<S: BuildHasher + Drop>(
    bag: &mut HashBag<u64, S>,
    value: u64,
    before: usize,
    refusals: &mut Refusals,
) -> Result<bool, Wrong> {
    let Some(answer) = refusals.answer(bag.insert_many(value, 2))? else {
        return Ok(false);
    };
    check(answer == before, "insert_many: its answer")?;
    Ok(true)
}

/// The slots of a bag's newer table, those of the older one that wait, and the room.
pub fn tables_of<T: Eq + Hash + Drop, S: BuildHasher + Drop>(
    bag: &HashBag<T, S>,
) -> (usize, usize, usize) {
    (bag.slots(), bag.waiting(), bag.room())
}

/// Returns a bag with 5 twice. If that fails, the bag is empty, and 5 is inserted with memory again.
pub fn two_fives(alloc: Global, refusals: &mut Refusals) -> Result<HashBag<u64>, Wrong> {
    let mut bag = HashBag::new(alloc);
    insert_fives(&mut bag, refusals)?;
    Ok(bag)
}

fn insert_fives(bag: &mut HashBag<u64>, refusals: &mut Refusals) -> Result<(), Wrong> {
    if !insert_two(bag, 5, 0, refusals)? {
        has_counts(bag, (0, 0, 0), "the first insertion: refused")?;
        let done = insert_two(bag, 5, 0, refusals)?;
        check(done, "the first insertion: with memory again")?;
    }
    has_counts(bag, (2, 0, 0), "the first insertion")
}
