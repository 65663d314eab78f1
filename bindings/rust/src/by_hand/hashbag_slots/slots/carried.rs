//! Two helps of a carry, which change nothing of what it does. By hand: the source looks for a free slot tag by tag, and knows no cache.
use super::Slots;
use crate::made::hashbag_slots::cells::prefetch;
use crate::made::hashbag_slots::group::{GROUP_WIDTH, first_not_live};
use crate::made::hashbag_slots::probe::MOST_CACHED;
use std::hash::Hash;

/// A table with fewer slots is in the cache next to the processor, and its tags were written a moment ago: they are best read one by one.
const LEAST_WIDE: usize = 1 << 12;

impl<T> Slots<T> {
    /// Asks for the memory that the next carry into this table uses, if it goes on from the place `from` of the older table. The homes of its values
    /// are there, or as many times the older table's slots further on. Insertions lie between two carries, and use other memory.
    #[inline(always)]
    pub fn prefetch_carry(&self, older: &Slots<T>, from: usize) {
        if older.slots >= LEAST_WIDE {
            older.cells.prefetch(from, GROUP_WIDTH);
            for home in (from..self.slots).step_by(older.slots) {
                prefetch(self.tags.as_slice().as_ptr().wrapping_add(home));
                self.cells.prefetch(home, GROUP_WIDTH);
            }
        }
    }
}

impl<T: Hash> Slots<T> {
    /// Returns what `first_free` returns. It reads sixteen tags at once, unless the table is small or isn't in the cache.
    #[inline(always)]
    pub(super) fn first_free_wide(&self, hash: u64) -> usize {
        if !(LEAST_WIDE..=MOST_CACHED).contains(&self.slots) {
            return self.first_free(hash);
        }
        let mut at = hash as usize & (self.slots - 1);
        loop {
            let free = at + first_not_live(self.tags.as_slice(), at);
            if free < self.slots.min(at + GROUP_WIDTH) {
                return free;
            }
            at += GROUP_WIDTH;
            if at >= self.slots {
                at = 0;
            }
        }
    }
}
