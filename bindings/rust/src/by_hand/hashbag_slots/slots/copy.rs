//! Copies of tables, slot by slot. By hand: the source's clone hashes each value, and so does `Table::copy` if it has to.
use super::Slots;
use crate::made::hashbag_slots::group::take_lowest;
use crate::made::hashbag_slots::walk::{MASK_WIDTH, match_live_wide};
use crate::rattle::{AllocError, Global};
use std::mem;

impl<T: Clone> Slots<T> {
    /// Returns a table with a clone of each value in its place, under the same hashes.
    ///
    /// If values need a drop, the tag of a cell is written once it is filled. So if a clone panics, what was cloned is dropped. Other tags are
    /// written at the end.
    pub(crate) fn copy(&self, alloc: Global) -> Result<Slots<T>, AllocError> {
        let mut copy = Slots::with_slots(alloc, self.slots())?;
        let mut from = 0;
        while from < self.slots() {
            let mut ahead = match_live_wide(&self.tags[from..self.slots().min(from + MASK_WIDTH)]);
            while ahead != 0 {
                let (place, rest) = take_lowest(ahead, from);
                let (value, count) = self.live_at(place);
                copy.cells.put(place, (value.clone(), count));
                if mem::needs_drop::<T>() {
                    copy.tags[place] = self.tags[place];
                }
                ahead = rest;
            }
            from += MASK_WIDTH;
        }
        copy.tags.as_mut_slice().copy_from_slice(self.tags.as_slice());
        copy.live = self.live;
        copy.removed = self.removed;
        Ok(copy)
    }
}
