// Made by bindings/rust/make of crates/hashbag_slots/src/probe.rt. Change that, or what `make` reads.
use crate::rattle::prelude::*;
// Probes along the path of a hash: where a value is, and the first slot that is free for one.
//
// A path begins at the hash modulo the number of slots, goes from slot to slot, and goes on at slot 0 after the last one. A probe reads tags,
// sixteen at once. It reads a cell only if the tag is the fingerprint of the hash. If hashes are spread evenly, one in 128 of the other values on
// the path has the same fingerprint.
//
// In clauses `hash_under ..` is the hash under the state. `HoldsAt` says that the slot at a place has the value that the key names, and `IsAbsent`
// that no slot has it. `Agree`: the cells of Live slots have a value, and no others. `IsFirstFree`: the place is the first on the path whose slot
// isn't Live. `AreReached`: a probe finds each value by its hash. `slots_of`: the slots that the tags and the cells stand for. `IsSlotCount`: 0, or a
// power of two from 16 to 2^59.

use crate::made::hashbag_slots::cells::Cells;
use crate::made::hashbag_slots::group::{
    GROUP_WIDTH, first_equal, first_not_live, lowest, match_tag, match_tag_before_empty,
    take_lowest,
};
use crate::made::hashbag_slots::key::Key;
use crate::made::hashbag_slots::tags::{EMPTY, LEAST_LIVE, fingerprint_of};
use std::hash::{BuildHasher, Hash};

// In a table with more slots than this, a look-up reads the home slot of the value first: the cells are seldom in the processor's cache.
pub const MOST_CACHED: usize = 1 << 18;

// What a probe along the path of a value shows of it.
#[derive(Clone, Copy, PartialEq, Eq, Debug)]
pub enum Probed {
    // The value is in the slot at this place.
    Found(usize),
    // The value is in no slot of the table. This is the first place on its path whose slot is not Live: an insertion puts the value there.
    Absent(usize),
    // The value is in no slot of the table, and no slot is free: all are Live, or there are none.
    Full,
}

// Returns the place of the slot that a probe for a hash reads after `step` steps, among `slots` slots. The path begins at the hash modulo `slots`,
// and goes on at slot 0 after the last slot.
#[inline(always)]
fn path_slot(hash: u64, step: usize, slots: usize) -> usize
{
    ((hash & (slots as u64 - 1)) as usize + step) & (slots - 1)
}

// Returns whether a key names the value in a cell.
#[inline(always)]
fn is_named<T: Eq + Hash, Q: Key<T>>(cells: &Cells<(T, usize)>, place: usize, key: Q) -> bool
{
    let entry = cells.get(place);
    key.names(&entry.0)
}

// Probes on for a value after the first 16 slots of its path, of which none is Empty and none has the value. It reads 16 tags at once: past the last
// slot they are those of no slot.
#[inline(always)]
fn find_on<T: Eq + Hash, Q: Key<T>>(
    tags: &[u8],
    slots: usize,
    cells: &Cells<(T, usize)>,
    hash: u64,
    key: Q,
) -> Option<usize>
{
    let fingerprint = fingerprint_of(hash);
    let mut at = path_slot(hash, 0, slots);
    let mut left = slots;
    'sixteens: while left >= GROUP_WIDTH {
        left -= GROUP_WIDTH;
        at += GROUP_WIDTH;
        if at >= slots {
            at = 0;
        }
        let tagged = match_tag(tags, at, fingerprint);
        if let Some(place) = find_tagged(tags, slots, cells, at, tagged, fingerprint, key) {
            return Some(place);
        }
        if first_equal(tags, at, EMPTY) < GROUP_WIDTH {
            return None;
        }
    }
    None
}

// Returns the place of the value that the key names, if `bits` marks its slot. Up to some place, bit i is 1 exactly if the tag at `from + i` is the
// fingerprint; bits behind that place are 0.
#[inline(always)]
fn find_tagged<T: Eq + Hash, Q: Key<T>>(
    tags: &[u8],
    slots: usize,
    cells: &Cells<(T, usize)>,
    from: usize,
    bits: u64,
    fingerprint: u8,
    key: Q,
) -> Option<usize>
{
    let mut ahead = bits;
    'fingerprints: while ahead != 0 {
        // The bit is cleared late, so that a hit doesn't pay for it.
        let place = lowest(ahead, from);
        if is_named(cells, place, key) {
            return Some(place);
        }
        let (_, rest) = take_lowest(ahead, from);
        ahead = rest;
    }
    None
}

// Returns what a probe along a key's path shows. Mostly the first 16 slots decide: one of them has the value, or one is Empty.
#[inline(always)]
pub fn probe_path<T: Eq + Hash, S: BuildHasher, Q: Key<T>>(
    tags: &[u8],
    slots: usize,
    cells: &Cells<(T, usize)>,
    state: &S,
    hash: u64,
    key: Q,
) -> Probed
{
    if slots == 0 {
        return Probed::Full;
    }
    let first = path_slot(hash, 0, slots);
    let fingerprint = fingerprint_of(hash);
    let tagged = match_tag(tags, first, fingerprint);
    if let Some(place) = find_tagged(tags, slots, cells, first, tagged, fingerprint, key) {
        return Probed::Found(place);
    }
    if first_equal(tags, first, EMPTY) < GROUP_WIDTH {
        return Probed::Absent(first + first_not_live(tags, first));
    }
    probe_on(tags, slots, cells, hash, key)
}

// Returns the first place among the 16 from `at` on whose slot isn't Live, or `slots` if there is none in the table.
#[inline(always)]
fn free_among(tags: &[u8], slots: usize, at: usize) -> usize
{
    let free = at + first_not_live(tags, at);
    if free < at + GROUP_WIDTH && free < slots {
        return free;
    }
    slots
}

// Probes on after the first 16 slots of a path, of which none is Empty and none has the value. It also finds the first slot of the whole path that isn't
// Live.
#[inline(never)]
fn probe_on<T: Eq + Hash, Q: Key<T>>(
    tags: &[u8],
    slots: usize,
    cells: &Cells<(T, usize)>,
    hash: u64,
    key: Q,
) -> Probed
{
    let fingerprint = fingerprint_of(hash);
    let mut at = path_slot(hash, 0, slots);
    let mut free = free_among(tags, slots, at);
    let mut left = slots;
    'sixteens: while left >= GROUP_WIDTH {
        left -= GROUP_WIDTH;
        at += GROUP_WIDTH;
        if at >= slots {
            at = 0;
        }
        let tagged = match_tag(tags, at, fingerprint);
        if let Some(place) = find_tagged(tags, slots, cells, at, tagged, fingerprint, key) {
            return Probed::Found(place);
        }
        if free == slots {
            free = free_among(tags, slots, at);
        }
        let stop = first_equal(tags, at, EMPTY);
        if stop < GROUP_WIDTH {
            return Probed::Absent(free);
        }
    }
    if free == slots {
        return Probed::Full;
    }
    Probed::Absent(free)
}

// Returns the first place on the path of a hash, if its slot has the value that the key names. `None` doesn't mean that the value is absent.
#[inline(always)]
fn find_at_home<T: Eq + Hash, Q: Key<T>>(
    tags: &[u8],
    slots: usize,
    cells: &Cells<(T, usize)>,
    hash: u64,
    key: Q,
) -> Option<usize>
{
    if slots == 0 {
        return None;
    }
    let first = path_slot(hash, 0, slots);
    if crate::sixteen::tag_at(tags, first) == fingerprint_of(hash) && is_named(cells, first, key) {
        return Some(first);
    }
    None
}

// Returns the place of the Live slot whose value the key names, or `None` if there is none. It probes from the key's hash until it finds the value
// or an Empty slot, or has read all slots. It passes Removed and Moved slots.
//
// Most values are in their home slot, the first one of their path. In a large table, whose cells aren't in the cache, the home slot is tried first.
// Its cell then loads without waiting for the other tags. In a small table a wrong guess costs more than it saves.
//
// Of the first 16 slots only the slots before the first Empty one are read. The value can't be after the Empty slot, so a cell there with the same
// fingerprint would be read for nothing.
#[inline(always)]
pub fn find_place<T: Eq + Hash, Q: Key<T>>(
    tags: &[u8],
    slots: usize,
    cells: &Cells<(T, usize)>,
    hash: u64,
    key: Q,
) -> Option<usize>
{
    let mask = slots.wrapping_sub(1);
    if mask < MOST_CACHED {
        return find_small(tags, mask, cells, hash, key);
    }
    find_large(tags, slots, cells, hash, key)
}

// Returns the same, as it is best in a large table.
#[inline(always)]
pub fn find_large<T: Eq + Hash, Q: Key<T>>(
    tags: &[u8],
    slots: usize,
    cells: &Cells<(T, usize)>,
    hash: u64,
    key: Q,
) -> Option<usize>
{
    if slots == 0 {
        return None;
    }
    if let Some(place) = find_at_home(tags, slots, cells, hash, key) {
        return Some(place);
    }
    let first = path_slot(hash, 0, slots);
    let fingerprint = fingerprint_of(hash);
    let (tagged, ends) = match_tag_before_empty(tags, first, fingerprint);
    if let Some(place) = find_tagged(tags, slots, cells, first, tagged, fingerprint, key) {
        return Some(place);
    }
    if ends {
        return None;
    }
    find_on(tags, slots, cells, hash, key)
}

// Returns the same in a table of `mask + 1` slots.
#[inline(always)]
pub fn find_small<T: Eq + Hash, Q: Key<T>>(
    tags: &[u8],
    mask: usize,
    cells: &Cells<(T, usize)>,
    hash: u64,
    key: Q,
) -> Option<usize>
{
    let first = hash as usize & mask;
    let fingerprint = fingerprint_of(hash);
    let tagged = match_tag(tags, first, fingerprint);
    if let Some(place) = find_tagged(tags, mask + 1, cells, first, tagged, fingerprint, key) {
        return Some(place);
    }
    if match_tag(tags, first, EMPTY) != 0 {
        return None;
    }
    find_on(tags, mask + 1, cells, hash, key)
}

// Returns the first place on the path of a hash whose slot is not Live.
//
// It reads the first 16 slots one by one, since most values find a free slot among the first few. A load of 16 bytes would also wait for a recent
// store to one of these bytes, as when a neighbour was just placed. After the first 16 slots it reads sixteen at once.
#[inline(always)]
pub fn first_free(tags: &[u8], hash: u64) -> usize
{
    let slots = tags.len();
    let mut step = 0;
    'near: while step < GROUP_WIDTH {
        let place = path_slot(hash, step, slots);
        if tags[place] < LEAST_LIVE {
            return place;
        }
        step += 1;
    }
    first_free_from(tags, hash, step)
}

// Returns the same as `first_free`. The first `passed` slots of the path must be Live, and aren't read.
#[inline(never)]
fn first_free_from(tags: &[u8], hash: u64, passed: usize) -> usize
{
    let slots = tags.len();
    let mut step = passed;
    'steps: while step < slots {
        let place = path_slot(hash, step, slots);
        if place + GROUP_WIDTH <= slots {
            let lane = first_not_live(tags, place);
            if lane < GROUP_WIDTH {
                return place + lane;
            }
            step += GROUP_WIDTH;
        } else {
            if tags[place] < LEAST_LIVE {
                return place;
            }
            step += 1;
        }
    }
    unreachable!()
}
