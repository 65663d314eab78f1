//! What steps met, so that a list of steps that meets little fails.
use hashbag::HashBag;
use hashbag::script::{Reply, Step};
use std::alloc::{AllocError, Global};
use std::hash::{BuildHasher, Hash};
use std::test::Fail;

// The kinds of steps. A step of another kind fails, and so does a kind that is hardly met.
const KINDS: &[&str] = &[
    "insert",
    "insert_many",
    "replace",
    "remove",
    "remove_up_to",
    "try_take",
    "take_all",
    "entry_set",
    "entry_or",
    "retain",
    "clear",
    "count",
    "reserve",
    "shrink_to_fit",
    "limit",
];

/// What a bag's tables are like.
#[derive(Clone, Copy)]
pub struct State {
    values: usize,
    waiting: usize,
    room: usize,
    // The Removed slots of the newer table. Those of its slots that hold no value and leave no room are such ones.
    removed: usize,
    // How many occurrences more the limit allows.
    left: usize,
    // How many more a `usize` allows.
    to_end: usize,
}

/// The tables of a bag.
pub fn state_of<T: Eq + Hash + Drop, S: BuildHasher + Drop>(bag: &HashBag<T, S>) -> State {
    let (values, room) = (bag.set_len(), bag.room());
    let most = bag.slots() / 4 * 3;
    State {
        values,
        waiting: bag.waiting(),
        room,
        removed: most.saturating_sub(room).saturating_sub(values),
        left: bag.limit() - bag.len(),
        to_end: usize::MAX - bag.len(),
    }
}

/// How many steps met what.
#[derive(Debug, Drop)]
pub struct Met {
    /// New values without room, for which a table was made.
    pub growths: usize,
    /// New values that left fewer slots waiting.
    pub carries: usize,
    /// Steps that left a Removed slot.
    pub removed: usize,
    /// New values that went into a Removed slot.
    pub reused: usize,
    /// Steps after which the total is the limit.
    pub full: usize,
    /// Steps after which the total is at the end of a `usize`.
    pub at_end: usize,
    /// `TooMany`.
    pub too_many: usize,
    /// `BelowTotal`.
    pub below_total: usize,
    /// Steps of each kind.
    pub kinds: Vec<usize>,
}

// The kind of a step.
fn kind_of<T>(step: &Step<T>) -> &'static str {
    match step {
        Step::Insert(_) => "insert",
        Step::InsertMany(_, _) => "insert_many",
        Step::Replace(_) => "replace",
        Step::Remove(_) => "remove",
        Step::RemoveUpTo(_, _) => "remove_up_to",
        Step::TryTake(_) => "try_take",
        Step::TakeAll(_) => "take_all",
        Step::EntrySet(_, _) => "entry_set",
        Step::EntryOr(_, _) => "entry_or",
        Step::Retain(_) => "retain",
        Step::Clear => "clear",
        Step::Count(_) => "count",
        Step::Reserve(_) => "reserve",
        Step::ShrinkToFit => "shrink_to_fit",
        Step::Limit(_) => "limit",
    }
}

fn raise(count: &mut usize, met: bool) {
    if met {
        *count = count.saturating_add(1);
    }
}

impl Met {
    /// Nothing yet.
    pub fn new(alloc: Global) -> Result<Met, AllocError> {
        let mut kinds = Vec::new(alloc);
        for _ in KINDS {
            kinds.push(0)?;
        }
        Ok(Met {
            growths: 0,
            carries: 0,
            removed: 0,
            reused: 0,
            full: 0,
            at_end: 0,
            too_many: 0,
            below_total: 0,
            kinds,
        })
    }

    /// Counts a step.
    pub fn count<T>(&mut self, step: &Step<T>) -> Result<(), Fail> {
        let kind = kind_of(step);
        for (name, count) in KINDS.iter().zip(self.kinds.iter_mut()) {
            if *name == kind {
                raise(count, true);
                return Ok(());
            }
        }
        Err(Fail::new(format_args!("no such kind of step: {kind}")))
    }

    /// Counts what a step replied and did to the tables.
    pub fn note<T: PartialEq>(&mut self, before: State, after: State, reply: &Reply<T>) {
        let came = after.values > before.values;
        let grew = came && before.room == 0;
        let reused = came && !grew && before.waiting == 0 && after.removed < before.removed;
        raise(&mut self.growths, grew);
        raise(&mut self.carries, came && after.waiting < before.waiting);
        raise(&mut self.removed, after.removed > before.removed);
        raise(&mut self.reused, reused);
        raise(&mut self.full, after.left == 0);
        raise(&mut self.at_end, after.to_end == 0);
        raise(&mut self.too_many, *reply == Reply::TooMany);
        raise(&mut self.below_total, *reply == Reply::BelowTotal);
    }
}
