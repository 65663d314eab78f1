//! Slots along whole runs: how many there are in the end, and how many were built on the way. The number of inserted values bounds how many
//! slots are built.
use hashbag::script::{Step, run};
use hashbag::{FixedState, HashBag};
use std::alloc::{AllocError, Global};
use std::hash::BuildHasher;
use std::test::Fail;
use tests_kit::texts::{count, halves, number};
use tests_kit::{IdentityState, OneState, ParityState, rows_of};

// A run and what it leaves. `in 100` inserts 1 to 100. `in_and_out` removes each value at once. `window` removes, after each insertion from the
// ninth on, the value that was inserted eight insertions before. `limited` sets the limit to each number before it is inserted. `clear` and
// `shrink` are the last steps. `built` is the sum of the slots of all tables made.
const ALL_ROWS: &str = "
    in_and_out 1000 = slots 16
    in 100 = slots 256, waiting 64, room 92, built 496
    limited 100 = slots 256, waiting 64, room 92, built 496
    in 100 clear = slots 256, waiting 0, room 192
    in 100 clear shrink = slots 0, room 0";

// Under a state by which all values collide, Removed slots are used again, and one table is made.
const ONE_ROWS: &str = "
    in_and_out 1000 = slots 16, built 16
    window 1000 = slots 16, set_len 8, built 16";

// Under a state by which no values collide, Removed slots aren't used again: a table is made for each twelve values that come and go.
const IDENTITY_ROWS: &str = "
    in_and_out 1000 = slots 16, built 1344
    window 1000 = slots 32, set_len 8, built 1936";

// With many values: tables of 16, 32, 64 and so on up to 16384 slots were built, 32752 slots in all.
const MANY_ROWS: &str = "in 10000 = slots 16384, waiting 0, room 2288, built 32752";

// What a run left of a bag's tables, and what was counted on the way.
#[derive(Clone, Copy)]
struct Left {
    slots: usize,
    waiting: usize,
    room: usize,
    set_len: usize,
    built: usize,
}

impl Left {
    fn of<S: BuildHasher + Drop>(bag: &HashBag<u64, S>, built: usize) -> Left {
        Left {
            slots: bag.slots(),
            waiting: bag.waiting(),
            room: bag.room(),
            set_len: bag.set_len(),
            built,
        }
    }

    fn number(&self, name: &str) -> Result<usize, Fail> {
        match name {
            "slots" => Ok(self.slots),
            "waiting" => Ok(self.waiting),
            "room" => Ok(self.room),
            "set_len" => Ok(self.set_len),
            "built" => Ok(self.built),
            _ => Err(Fail::new(format_args!("no such number: {name}"))),
        }
    }
}

// How many values were inserted, and the slots of the tables that were made for them.
#[derive(Clone, Copy)]
struct Built {
    arrivals: usize,
    slots: usize,
}

// The steps for one value of a run.
fn push_steps(steps: &mut Vec<Step<u64>>, course: &str, value: u64) -> Result<(), AllocError> {
    if course == "limited" {
        steps.push(Step::Limit(value as usize))?;
    }
    steps.push(Step::Insert(value))?;
    match course {
        "in_and_out" => steps.push(Step::Remove(value))?,
        "window" if value > 8 => steps.push(Step::Remove(value - 8))?,
        _ => (),
    }
    Ok(())
}

// The last steps of a run.
fn push_ends(steps: &mut Vec<Step<u64>>, row: &str) -> Result<(), AllocError> {
    for word in row.split(' ') {
        match word {
            "clear" => steps.push(Step::Clear)?,
            "shrink" => steps.push(Step::ShrinkToFit)?,
            _ => (),
        }
    }
    Ok(())
}

// The steps of the run that is written as `in 100 clear`.
fn steps_of(alloc: Global, row: &str) -> Result<Vec<Step<u64>>, Fail> {
    let mut words = row.split(' ');
    let (Some(course), Some(last)) = (words.next(), words.next()) else {
        return Err(Fail::new(format_args!("no run: {row}")));
    };
    let mut steps = Vec::new(alloc);
    for value in 1..=number(last)? {
        push_steps(&mut steps, course, value)?;
    }
    push_ends(&mut steps, row)?;
    Ok(steps)
}

fn run_all<S: BuildHasher + Drop>(
    alloc: Global,
    bag: &mut HashBag<u64, S>,
    steps: Vec<Step<u64>>,
) -> Result<(), Fail> {
    let mut replies = Vec::new(alloc);
    run(bag, steps, &mut replies)?;
    Ok(())
}

// Does one step, and counts a value that it inserts. If there was no room, a new table was made: its slots are counted too.
fn run_one<S: BuildHasher + Drop>(
    alloc: Global,
    bag: &mut HashBag<u64, S>,
    step: Step<u64>,
    so_far: Built,
) -> Result<Built, Fail> {
    let before = Left::of(bag, 0);
    let mut steps = Vec::new(alloc);
    steps.push(step)?;
    run_all(alloc, bag, steps)?;
    if bag.set_len() <= before.set_len {
        return Ok(so_far);
    }
    let arrivals = so_far.arrivals.saturating_add(1);
    if before.room == 0 {
        let slots = so_far.slots.saturating_add(bag.slots());
        return Ok(Built { arrivals, slots });
    }
    if bag.slots() != before.slots {
        return Err(Fail::new("the number of slots changed although there was room"));
    }
    Ok(Built { arrivals, ..so_far })
}

// Does the steps one by one, and returns the slots of all tables that were made.
fn built_by<S: BuildHasher + Drop>(
    alloc: Global,
    bag: &mut HashBag<u64, S>,
    steps: Vec<Step<u64>>,
) -> Result<usize, Fail> {
    let mut so_far = Built {
        arrivals: 0,
        slots: 0,
    };
    for step in steps {
        so_far = run_one(alloc, bag, step, so_far)?;
    }
    let most = so_far.arrivals.saturating_mul(16).saturating_add(48);
    if so_far.slots.saturating_mul(3) > most {
        return Err(Fail::new("more slots were built than the inserted values allow"));
    }
    Ok(so_far.slots)
}

fn is_left(left: Left, wanted: &str) -> Result<(), Fail> {
    for want in wanted.split(", ") {
        let (name, n) = halves(want, " ")?;
        let got = left.number(name)?;
        if got != count(n)? {
            return Err(Fail::new(format_args!("{name} is {got}, not {n}")));
        }
    }
    Ok(())
}

// Returns the slots that the steps of a course build one by one, and checks what they leave.
fn built_in_steps<S: BuildHasher + Drop>(
    alloc: Global,
    state: S,
    course: &str,
    want: &str,
) -> Result<usize, Fail> {
    let mut bag = HashBag::with_hasher(alloc, state);
    let built = built_by(alloc, &mut bag, steps_of(alloc, course)?)?;
    is_left(Left::of(&bag, built), want)?;
    Ok(built)
}

fn is_bounded<S: BuildHasher + Copy>(alloc: Global, state: S, row: &str) -> Result<(), Fail> {
    let (course, want) = halves(row, " = ")?;
    let built = built_in_steps(alloc, state, course, want)?;
    let mut bag = HashBag::with_hasher(alloc, state);
    run_all(alloc, &mut bag, steps_of(alloc, course)?)?;
    is_left(Left::of(&bag, built), want)
}

fn bounded_under<S: BuildHasher + Copy>(
    alloc: Global,
    state: S,
    rows: &'static str,
) -> Result<(), Fail> {
    for row in rows_of(alloc, rows)? {
        row.tested(is_bounded(alloc, state, row.text))?;
    }
    Ok(())
}

#[test]
fn runs_are_bounded(rt: HostRuntime) -> Result<(), Fail> {
    let alloc = rt.alloc();
    bounded_under(alloc, FixedState::new(), ALL_ROWS)?;
    bounded_under(alloc, OneState, ALL_ROWS)?;
    bounded_under(alloc, ParityState, ALL_ROWS)?;
    bounded_under(alloc, IdentityState, ALL_ROWS)?;
    bounded_under(alloc, OneState, ONE_ROWS)?;
    bounded_under(alloc, IdentityState, IDENTITY_ROWS)?;
    bounded_under(alloc, FixedState::new(), MANY_ROWS)
}
