// Made by bindings/rust/make of crates/hashbag_table/src/capacity.rt. Change that, or what `make` reads.
use crate::rattle::prelude::*;
// Numbers of slots, and tables of slots that hold nothing.

use crate::made::hashbag_slots::slots::{Slot, Slots};
use crate::rattle::{AllocError, Global};

// The number of slots of the first table that a growth makes.
pub const FIRST_SLOTS: usize = 16;

// The greatest number of slots of a table, 2^59.
pub const MOST_SLOTS: usize = 1 << 59;

// Returns a table without slots. It doesn't allocate.
pub fn no_slots<T>(alloc: Global) -> Slots<T>
{
    match Slots::with_slots(alloc, 0) {
        Ok(slots) => slots,
        Err(_) => unreachable!(),
    }
}

// Drops all values, and makes each slot Empty. It does nothing if all slots are Empty.
pub fn clear_slots<T>(slots: &mut Slots<T>)
{
    if slots.live() > 0 || slots.removed() > 0 {
        slots.clear();
    }
}

// Returns how many of `slots` slots may be Live or Removed: three quarters.
#[inline(always)]
pub fn most_used(slots: usize) -> usize
{
    3 * slots / 4
}

// Returns whether at most three eighths of `slots` slots are Live. A new table with as many slots then has room for at least `live` more values.
fn is_sparse(slots: usize, live: usize) -> bool
{
    8 * live <= 3 * slots
}

// Returns how many slots a growth makes, if the table has `slots` slots and `live` values: 16 if `slots` is 0, `slots` if at most three eighths of
// them are Live, else `2 * slots`.
//
// # Errors
//
// `AllocError` if that is more than 2^59.
pub fn grown_slots(slots: usize, live: usize) -> Result<usize, AllocError>
{
    if slots == 0 {
        return Ok(FIRST_SLOTS);
    }
    if is_sparse(slots, live) {
        return Ok(slots);
    }
    if slots >= MOST_SLOTS {
        return Err(AllocError);
    }
    Ok(2 * slots)
}

// Returns the least number of slots, not below `from`, of which `values` may be Live.
//
// # Errors
//
// `AllocError` if that is more than 2^59.
pub fn least_slots(from: usize, values: usize) -> Result<usize, AllocError>
{
    let mut slots = from;
    'slots: while most_used(slots) < values {
        if slots >= MOST_SLOTS {
            return Err(AllocError);
        }
        slots = if slots == 0 { FIRST_SLOTS } else { 2 * slots };
    }
    Ok(slots)
}
