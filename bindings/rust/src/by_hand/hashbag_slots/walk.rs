//! Walks over two tables of slots, a newer and an older one: their values with their counts, each once. Kept by hand in place of the source's, which
//! makes three passes over each table.
//!
//! A walk makes one pass, over blocks of 256 slots or more, in an order in which the blocks so far lie evenly over both tables: by a stride of the
//! golden ratio, blocks of the newer and of the older table by turns. So a smaller table that is filled by a walk is filled evenly. In the order of
//! places, the first half of a walk would fill it from end to end, and the second half would probe through full slots.
use crate::made::hashbag_slots::cells::{Cells, Owner};
use crate::made::hashbag_slots::group::{GROUP_WIDTH, match_live};
use crate::made::hashbag_slots::tags::REMOVED;
use crate::rattle::{AllocError, TryClone};
use std::slice;

/// A block of slots of one table.
#[derive(Clone, Copy)]
struct Block {
    is_older: bool,
    /// Its first place, and the end.
    from: usize,
    to: usize,
}

/// How many slots a block has, as a power of two: 256, in large tables more, where a step from block to block costs more than a block that isn't in
/// the cache.
fn block_bits(slots: usize) -> u32 {
    (slots / 128).clamp(256, 4096).ilog2()
}

/// How many blocks a table has.
fn blocks(slots: usize) -> usize {
    let bits = block_bits(slots);
    (slots + ((1 << bits) - 1)) >> bits
}

/// The block of a table of `blocks` blocks that comes after `i` others.
fn block(i: usize, blocks: usize) -> usize {
    // An odd stride comes to each of a power of two of blocks once.
    let stride = ((blocks as u128 * 0x9E37_79B9_7F4A_7C15) >> 64) as usize | 1;
    i.wrapping_mul(stride) & (blocks - 1)
}

/// Returns the block of two tables that comes after `begun` others. It is out of line and takes numbers, so that a walk stays in registers.
#[inline(never)]
fn block_after(begun: usize, newer: usize, older: usize) -> Option<Block> {
    let (ours, theirs) = (blocks(newer), blocks(older));
    let all = ours + theirs;
    if begun == all {
        return None;
    }
    let (is_older, i) = if theirs == 0 {
        (false, begun)
    } else {
        // Of the blocks begun, those of the newer table are its share.
        let share = |begun: usize| (begun as u128 * ours as u128 / all as u128) as usize;
        let before = share(begun);
        if before == share(begun + 1) { (true, begun - before) } else { (false, before) }
    };
    let (slots, blocks) = if is_older { (older, theirs) } else { (newer, ours) };
    let bits = block_bits(slots);
    let from = block(i, blocks) << bits;
    Some(Block { is_older, from, to: slots.min(from + (1 << bits)) })
}

/// How many slots a mask has a bit for.
pub(crate) const MASK_WIDTH: usize = 64;

/// Returns a mask of at most 64 tags, a multiple of 16 of them: bit i is set if the slot is Live.
///
/// The end of a loop over the bits of a mask is a branch that the processor seldom predicts. So a loop over 64 is faster than one over 16.
#[inline(always)]
pub(crate) fn match_live_wide(tags: &[u8]) -> u64 {
    let at = |from: usize| match_live(tags, from) << from;
    if tags.len() == MASK_WIDTH {
        return at(0) | at(16) | at(32) | at(48);
    }
    (0..tags.len()).step_by(GROUP_WIDTH).fold(0, |mask, from| mask | at(from))
}

/// How far a walk over references is.
#[derive(Clone)]
pub(crate) struct Course<'a> {
    /// The first place of the slots that are being read, at most 64, and a bit for each of them that is Live and comes.
    at: usize,
    ahead: u64,
    /// The tags of the block that come.
    groups: slice::Chunks<'a, u8>,
    /// How many blocks were begun.
    begun: usize,
}

impl Course<'_> {
    pub(crate) fn first() -> Self {
        Course { at: 0, ahead: 0, groups: [].chunks(MASK_WIDTH), begun: 0 }
    }
}

/// References to the values of two tables, with their counts.
pub struct Walk<'a, T> {
    pub(crate) newer_tags: &'a [u8],
    pub(crate) newer: &'a Cells<(T, usize)>,
    pub(crate) older_tags: &'a [u8],
    pub(crate) older: &'a Cells<(T, usize)>,
    /// The cells of the table whose block is read.
    pub(crate) cells: &'a Cells<(T, usize)>,
    pub(crate) course: Course<'a>,
    pub(crate) left: usize,
}

impl<T> TryClone for Walk<'_, T> {
    fn try_clone(&self) -> Result<Self, AllocError> {
        Ok(Walk { course: self.course.clone(), ..*self })
    }
}

impl<'a, T> Walk<'a, T> {
    /// Goes on to the next slots of which one is Live; returns whether there are some.
    #[inline(always)]
    fn advance(&mut self) -> bool {
        if self.left == 0 {
            return false;
        }
        loop {
            for tags in self.course.groups.by_ref() {
                self.course.at = self.course.at.wrapping_add(MASK_WIDTH);
                self.course.ahead = match_live_wide(tags);
                if self.course.ahead != 0 {
                    return true;
                }
            }
            if !self.begin_block() {
                return false;
            }
        }
    }

    #[inline(always)]
    fn begin_block(&mut self) -> bool {
        let Some(block) = block_after(self.course.begun, self.newer_tags.len(), self.older_tags.len()) else { return false };
        let tags = if block.is_older { self.older_tags } else { self.newer_tags };
        self.cells = if block.is_older { self.older } else { self.newer };
        self.course.groups = tags[block.from..block.to].chunks(MASK_WIDTH);
        self.course.at = block.from.wrapping_sub(MASK_WIDTH);
        self.course.begun += 1;
        true
    }
}

impl<'a, T> Iterator for Walk<'a, T> {
    type Item = (&'a T, usize);

    #[inline(always)]
    fn next(&mut self) -> Option<(&'a T, usize)> {
        if self.course.ahead == 0 && !self.advance() {
            return None;
        }
        let place = self.course.at + self.course.ahead.trailing_zeros() as usize;
        self.course.ahead &= self.course.ahead - 1;
        self.left -= 1;
        let entry = self.cells.get(place);
        Some((&entry.0, entry.1))
    }

    fn size_hint(&self) -> (usize, Option<usize>) {
        (self.left, Some(self.left))
    }
}

impl<T> ExactSizeIterator for Walk<'_, T> {
    fn len(&self) -> usize {
        self.left
    }
}

/// How far a walk by value is.
#[derive(Clone, Copy)]
pub(crate) struct OwnedCourse {
    at: usize,
    ahead: u64,
    block: Block,
    begun: usize,
}

impl OwnedCourse {
    pub(crate) fn first() -> OwnedCourse {
        OwnedCourse { at: 0, ahead: 0, block: Block { is_older: false, from: 0, to: 0 }, begun: 0 }
    }

    /// Returns the place of the next Live slot; the block then says in which table.
    #[inline(always)]
    fn step(&mut self, newer: &[u8], older: &[u8]) -> Option<usize> {
        while self.ahead == 0 {
            if self.block.from < self.block.to {
                self.at = self.block.from;
                self.block.from += GROUP_WIDTH;
                self.ahead = match_live(if self.block.is_older { older } else { newer }, self.at);
            } else {
                self.block = block_after(self.begun, newer.len(), older.len())?;
                self.begun += 1;
            }
        }
        let place = self.at + self.ahead.trailing_zeros() as usize;
        self.ahead &= self.ahead - 1;
        Some(place)
    }
}

/// The values of two tables, with their counts, by value. The walk owns the tables, and drops unread values with them.
pub struct IntoWalk<T> {
    // Each owner stands before its cells, so it is dropped before them.
    pub(crate) newer_tags: Owner,
    pub(crate) newer: Cells<(T, usize)>,
    pub(crate) older_tags: Owner,
    pub(crate) older: Cells<(T, usize)>,
    pub(crate) course: OwnedCourse,
    pub(crate) left: usize,
}

impl<T> Iterator for IntoWalk<T> {
    type Item = (T, usize);

    #[inline(always)]
    fn next(&mut self) -> Option<(T, usize)> {
        if self.left == 0 {
            return None;
        }
        let place = self.course.step(self.newer_tags.as_slice(), self.older_tags.as_slice())?;
        self.left -= 1;
        let (tags, cells) =
            if self.course.block.is_older { (&mut self.older_tags, &mut self.older) } else { (&mut self.newer_tags, &mut self.newer) };
        tags[place] = REMOVED;
        Some(cells.take(place))
    }

    fn size_hint(&self) -> (usize, Option<usize>) {
        (self.left, Some(self.left))
    }
}

impl<T> ExactSizeIterator for IntoWalk<T> {
    fn len(&self) -> usize {
        self.left
    }
}

impl<T> IntoWalk<T> {
    /// Returns a walk over references to what is left, from the first block on: the slots of what was read are no longer Live. This walk doesn't
    /// advance.
    pub fn rest(&self) -> Walk<'_, T> {
        Walk {
            newer_tags: self.newer_tags.as_slice(),
            newer: &self.newer,
            older_tags: self.older_tags.as_slice(),
            older: &self.older,
            cells: &self.newer,
            course: Course::first(),
            left: self.left,
        }
    }
}
