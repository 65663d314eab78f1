// Made by bindings/rust/make of crates/hashbag_slots/src/live.rt. Change that, or what `make` reads.
use crate::rattle::prelude::*;
// The Live slots of a table: how the next one is found, also in a walk over two tables, and how the values of all are dropped. In clauses
// `places_left` are the places of the Live slots that a walk hasn't given yet.

use crate::made::hashbag_slots::cells::Cells;
use crate::made::hashbag_slots::group::{GROUP_WIDTH, first_live, match_live, take_lowest};
use crate::made::hashbag_slots::tags::LEAST_LIVE;

// Returns the first place from `from` on whose slot is Live, or `None` if there is none.
#[inline(always)]
pub fn next_live(tags: &[u8], from: usize) -> Option<usize>
{
    let slots = tags.len();
    let mut at = from;
    'places: while at < slots {
        if at + GROUP_WIDTH <= slots {
            let lane = first_live(tags, at);
            if lane < GROUP_WIDTH {
                return Some(at + lane);
            }
            at += GROUP_WIDTH;
        } else {
            if tags[at] >= LEAST_LIVE {
                return Some(at);
            }
            at += 1;
        }
    }
    None
}

// How many passes a walk makes over each of its tables. Each pass takes every third block of slots. A turn is one pass over one table: a
// walk has six, numbered 5 to 0.
const PASSES: usize = 3;

// How many slots a block has. Their cells are some kilobytes, so that a pass brings only cells of its own blocks into the cache.
const BLOCK_SLOTS: usize = 256;

// How far a walk over two tables is.
#[derive(Clone, Copy)]
pub struct Course {
    // How many turns come after this one. Odd numbers are turns of the newer table. The turn's pass is half of the number.
    pub turn: usize,
    // The first place that the walk hasn't come to in this turn.
    pub next: usize,
    // A bit for each of the 16 slots before `until`: whether the slot is Live and not before `next`.
    pub ahead: u64,
    // The place that ends the 16 slots of `ahead`.
    pub until: usize,
}

impl Course {
    // Returns the course of a walk that begins.
    pub fn first() -> Course
    {
        Course {
            turn: 2 * PASSES - 1,
            next: 0,
            ahead: 0,
            until: 0,
        }
    }
}

// The tags of the table whose turn it is.
#[inline(always)]
fn tags_of_turn<'a>(turn: usize, newer: &'a [u8], older: &'a [u8]) -> &'a [u8]
{
    if turn % 2 == 1 { newer } else { older }
}

// Returns the next group of the block of `from`, from the place `from` on, that has a Live slot, as `next_live_group` does. It divides nothing.
#[inline(always)]
fn next_in_block(tags: &[u8], from: usize) -> Option<(usize, u64)>
{
    let slots = tags.len();
    let mut at = from;
    'groups: while at + GROUP_WIDTH <= slots {
        let ahead = match_live(tags, at);
        if ahead != 0 {
            return Some((at, ahead));
        }
        at += GROUP_WIDTH;
        if at % BLOCK_SLOTS == 0 {
            return None;
        }
    }
    None
}

// Returns the next group of a pass, from the place `from` on, that has a Live slot: the first place of the group, and a bit for each of its 16 slots.
// Only groups of the pass are read.
#[inline(always)]
fn next_live_group(tags: &[u8], pass: usize, from: usize) -> Option<(usize, u64)>
{
    if pass >= PASSES {
        return None;
    }
    let slots = tags.len();
    let block = from / BLOCK_SLOTS;
    // `pass - block` modulo `PASSES`, without going below 0: the number of blocks to skip.
    let skipped = (pass + (PASSES - 1) * block) % PASSES;
    let mut at = if skipped == 0 {
        from
    } else {
        (block + skipped) * BLOCK_SLOTS
    };
    'groups: while at + GROUP_WIDTH <= slots {
        let ahead = match_live(tags, at);
        if ahead != 0 {
            return Some((at, ahead));
        }
        at += GROUP_WIDTH;
        if at % BLOCK_SLOTS == 0 {
            at += (PASSES - 1) * BLOCK_SLOTS;
        }
    }
    None
}

// Returns the first Live slot at or after `from` in this turn, or in a later turn, and the course after it. `next_on_course` calls it if its
// block has no Live slot left.
#[inline(always)]
fn next_in_turns(newer: &[u8], older: &[u8], turn: usize, from: usize) -> Option<(usize, Course)>
{
    let mut turn = turn;
    let mut from = from;
    'turns: loop {
        let tags = tags_of_turn(turn, newer, older);
        if let Some((at, ahead)) = next_live_group(tags, turn / 2, from) {
            let (place, rest) = take_lowest(ahead, at);
            let course = Course {
                turn,
                next: place + 1,
                ahead: rest,
                until: at + GROUP_WIDTH,
            };
            return Some((place, course));
        }
        if turn == 0 {
            return None;
        }
        turn -= 1;
        from = 0;
    }
}

// Returns the place of the next Live slot of a walk, and the course after that place. The turn of the returned course shows which table the place is
// in.
#[inline(always)]
pub fn next_on_course(newer: &[u8], older: &[u8], course: Course) -> Option<(usize, Course)>
{
    let Course {
        turn,
        next: _,
        ahead,
        until,
    } = course;
    if ahead != 0 {
        let (place, rest) = take_lowest(ahead, until - GROUP_WIDTH);
        let course = Course {
            turn,
            next: place + 1,
            ahead: rest,
            until,
        };
        return Some((place, course));
    }
    if until % BLOCK_SLOTS != 0 {
        // The block goes on, and all of it is of the course's pass.
        let tags = tags_of_turn(turn, newer, older);
        if let Some((at, ahead)) = next_in_block(tags, until) {
            let (place, rest) = take_lowest(ahead, at);
            let course = Course {
                turn,
                next: place + 1,
                ahead: rest,
                until: at + GROUP_WIDTH,
            };
            return Some((place, course));
        }
    }
    next_in_turns(newer, older, turn, until)
}

// Drops the value of each Live slot among the 16 from the place `from` on, and empties its cell.
#[inline(always)]
fn drop_group<T>(tags: &[u8], cells: &mut Cells<(T, usize)>, from: usize)
{
    let mut ahead = match_live(tags, from);
    // At most 16 steps: then a compiler sees that the loop ends, and leaves it out if a drop does nothing.
    let mut steps = 0;
    'live: while steps < GROUP_WIDTH {
        if ahead == 0 {
            return;
        }
        let (place, rest) = take_lowest(ahead, from);
        drop(cells.take(place));
        ahead = rest;
        steps += 1;
    }
}

// Drops the value of each Live slot, and empties its cell. The tags are unchanged.
//
// Live slots are found sixteen at once.
pub fn drop_live<T>(tags: &[u8], cells: &mut Cells<(T, usize)>)
{
    let slots = tags.len();
    let groups = slots / GROUP_WIDTH;
    let mut group = 0;
    'groups: while group < groups {
        drop_group(tags, cells, group * GROUP_WIDTH);
        group += 1;
    }
}

// Does the same as [`drop_live`] for a table with `live` Live slots. It does nothing if none is Live.
#[inline(always)]
pub fn drop_if_live<T>(tags: &[u8], cells: &mut Cells<(T, usize)>, live: usize)
{
    if live > 0 {
        drop_live(tags, cells);
    }
}
