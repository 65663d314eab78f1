// Made by bindings/rust/make of crates/hashbag_table/src/retain.rt. Change that, or what `make` reads.
use crate::rattle::prelude::*;
// What is left of one table of slots after a closure returned a number for each value.

use crate::made::hashbag_slots::slots::Slots;

// Calls `f` once for the value at a place, and lowers its count as [`retain_slots`] does. The slot must be Live. Returns the count that is left.
#[inline(always)]
fn retain_at<T, F: FnMut(&T, usize) -> usize>(
    slots: &mut Slots<T>,
    place: usize,
    f: &mut F,
) -> usize
{
    let (value, count) = slots.live_at(place);
    let left = f(value, count).min(count);
    if left > 0 {
        slots.set_at(place, left);
        return left;
    }
    let (former, _) = slots.take_at(place);
    drop(former);
    0
}

// Calls `f` once for each value from the place `from` on, with its count, in the order of places. Each count becomes the lesser of the count and
// what `f` returns. If that is 0 the value is dropped, and its slot becomes Removed. Returns the total of the counts that are left there.
//
// # Complexity
//
// It hashes nothing and doesn't allocate. It reads sixteen tags at once. If no slot before `from` is Live, it stops after the last Live
// slot, since it knows how many there are. In a table without values it reads no tag.
pub fn retain_slots<T, F: FnMut(&T, usize) -> usize>(
    slots: &mut Slots<T>,
    from: usize,
    f: &mut F,
) -> usize
{
    let mut sum = 0;
    let mut at = from;
    let mut live_left = slots.live();
    'values: while live_left > 0 {
        let Some(place) = slots.next_live(at) else {
            return sum;
        };
        sum += retain_at(slots, place, f);
        at = place + 1;
        live_left -= 1;
    }
    sum
}
