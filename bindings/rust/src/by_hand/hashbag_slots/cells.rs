//! A row of cells, each empty or with a value, and the tags that own the values. By hand in the place of the source's, whose memory is the kit's.
//!
//! # Why this is sound
//!
//! `Cells` doesn't know which of its cells are filled: the tags of a table do. A cell is filled exactly if the tag at its place is 128 or more
//! (Live). That is proved of the sources, for types whose code neither lies nor panics. Here is why it holds for all types.
//!
//! - A tag and its cell change together in six functions: `Slots::place_at`, `Slots::take_leaving`, `IntoWalk::next`, `Slots::clear`, `Slots::copy`,
//!   and the drop of an `Owner`, after which nobody reads the cell. In the first three no code of a value runs between the two changes. In `clear`
//!   drops run: `MadeEmpty` makes all tags Empty even if one panics. In `copy` clones run, and a tag is written after its cell.
//! - `Slots::set_at`, `add_at` and `put_at` take a value and put one back. No code of a value runs in between.
//! - A place at which a cell is read was found by its tag in the same call: by a probe, by `next_live` or by a walk. The table has been borrowed
//!   since. No number that depends on a hash or on `==` is used as a place without a look at the tag.
//! - Places are below the number of tags that aren't guards, which is at most the number of cells.
//!
//! # Where a panic may leave the total wrong
//!
//! The total of a bag changes after its table. So a call of the crate in which a value's code may run in between is `guarded` (src/bag.rs): it counts
//! the total anew if it unwinds. These are insertions of a type with a drop, `replace`, `set_count`, `and_modify`, `remove`, `remove_up_to`,
//! `retain`, `clear`, `merge`, `keep_most`, `keep_common` and `take_away`. In all others nothing runs in between: `contains`, `get`, `take_all`,
//! `try_take`, `or_insert`, `insert_key`, `reserve`, `shrink_to_fit`, `finish_carry`, `drain`, joins and walks.
//!
//! # How values are dropped
//!
//! If a type that names `T` had a `Drop`, the compiler would ask that all that `T` refers to outlives the bag. std's tables are freed of that by
//! `may_dangle`, which isn't stable. So the type with the `Drop`, `Owner`, doesn't name `T`. It has the address of the cells, and a function that was
//! made for `T`. Whether a `T` may be dropped is still asked, since `Cells<T>` is a `Vec<T>`: a value whose own drop may read what it refers to must
//! not outlive it. The second example of `HashBag` shows the first, the third the second.
//!
//! - `Owner::over` takes the address and the function from the same cells. The elements of a vector don't move with it, and `Cells` never grows.
//! - An owner is in one struct with its cells (`Slots`, `IntoWalk`), before them, so it is dropped before them.
#![allow(unsafe_code)]
use crate::made::hashbag_slots::group::{GROUP_WIDTH, match_live, take_lowest};
use crate::rattle::{AllocError, Global, Vec};
use std::alloc::{self, Layout};
use std::mem;
use std::ops::{Deref, DerefMut};
use std::sync::atomic::AtomicPtr;

/// Cells: the room of a vector that has no elements.
pub struct Cells<T> {
    room: std::vec::Vec<T>,
    /// For tests: which cells are filled.
    #[cfg(feature = "check")]
    filled: std::vec::Vec<bool>,
}

impl<T> Cells<T> {
    /// Returns `n` empty cells.
    pub fn new(_: Global, n: usize) -> Result<Cells<T>, AllocError> {
        let mut room = std::vec::Vec::new();
        room.try_reserve_exact(n).map_err(|_| AllocError)?;
        Ok(Cells {
            room,
            #[cfg(feature = "check")]
            filled: vec![false; n],
        })
    }

    /// Returns a reference to the value in a filled cell.
    #[inline(always)]
    pub fn get(&self, place: usize) -> &T {
        #[cfg(feature = "check")]
        assert!(self.filled[place], "READ OF AN EMPTY CELL");
        debug_assert!(place < self.room.capacity());
        // SAFETY: the place is within the room and filled, as said above.
        unsafe { &*self.room.as_ptr().add(place) }
    }

    /// Puts a value into an empty cell.
    #[inline(always)]
    pub fn put(&mut self, place: usize, value: T) {
        #[cfg(feature = "check")]
        assert!(!mem::replace(&mut self.filled[place], true), "PUT OVER A VALUE");
        debug_assert!(place < self.room.capacity());
        // SAFETY: the place is within the room.
        unsafe { self.room.as_mut_ptr().add(place).write(value) };
    }

    /// Removes the value from a filled cell, and returns it. The caller changes the tag.
    #[inline(always)]
    pub fn take(&mut self, place: usize) -> T {
        #[cfg(feature = "check")]
        assert!(mem::replace(&mut self.filled[place], false), "TAKE OF AN EMPTY CELL");
        debug_assert!(place < self.room.capacity());
        // SAFETY: the place is within the room and filled, as said above, and the cell isn't read again before a value is put into it.
        unsafe { self.room.as_ptr().add(place).read() }
    }

    /// Asks the processor for the memory of `many` cells. Nothing is read. Of larger cells there would be too many lines.
    #[inline(always)]
    pub fn prefetch(&self, place: usize, many: usize) {
        if size_of::<T>() <= 32 {
            let cells = self.room.as_ptr().cast::<u8>().wrapping_add(place * size_of::<T>());
            (0..many * size_of::<T>()).step_by(LINE).for_each(|at| prefetch(cells.wrapping_add(at)));
        }
    }

    /// Leaks all values that are left, after a drop that panicked among theirs.
    pub fn leak(&mut self) {
        #[cfg(feature = "check")]
        self.filled.fill(false);
    }
}

/// How many bytes the processor's cache reads at once.
const LINE: usize = 64;

/// Asks the processor for the memory at an address, which may be any.
#[inline(always)]
pub fn prefetch(at: *const u8) {
    #[cfg(all(target_arch = "x86_64", not(miri)))]
    // SAFETY: nothing is read.
    unsafe {
        std::arch::x86_64::_mm_prefetch::<{ std::arch::x86_64::_MM_HINT_T0 }>(at.cast());
    }
    #[cfg(not(all(target_arch = "x86_64", not(miri))))]
    let _ = at;
}

/// Returns `n` tags of Empty slots. They come zeroed from the allocator, so a growth writes none of them.
pub fn empty_tags(n: usize) -> Result<Vec<u8>, AllocError> {
    let layout = Layout::array::<u8>(n).map_err(|_| AllocError)?;
    if n == 0 {
        return Ok(Vec(std::vec::Vec::new()));
    }
    // SAFETY: the layout has a size.
    let tags = unsafe { alloc::alloc_zeroed(layout) };
    if tags.is_null() {
        return Err(AllocError);
    }
    // SAFETY: the allocator gave `n` bytes of this layout, which is that of a vector of `n` bytes, and each of them is 0.
    Ok(Vec(unsafe { std::vec::Vec::from_raw_parts(tags, n, n) }))
}

/// The tags of a table. Its drop drops the values in the cells whose tags are Live. If a value's drop panics, the values after it leak, as in std's
/// tables.
pub struct Owner {
    tags: Vec<u8>,
    /// Where the cells are. Only the drop reads it: an atomic pointer may be shared with other threads.
    cells: AtomicPtr<()>,
    /// Drops the values. `None` if they need no drop.
    drop_values: Option<fn(&mut Owner)>,
}

impl Owner {
    /// Returns the owner of the values in these cells, which stands before them in one struct.
    pub fn over<T>(tags: Vec<u8>, cells: &mut Cells<T>) -> Owner {
        let drop_values: Option<fn(&mut Owner)> = if mem::needs_drop::<T>() { Some(drop_values::<T>) } else { None };
        Owner { tags, cells: AtomicPtr::new(cells.room.as_mut_ptr().cast()), drop_values }
    }
}

/// Drops the values of an owner whose cells are of `T`. Only the owner's own drop calls it. A guard after the last slot is never Live.
fn drop_values<T>(owner: &mut Owner) {
    let cells = owner.cells.get_mut().cast::<T>();
    let mut from = 0;
    while from < owner.tags.len() {
        let mut ahead = match_live(owner.tags.as_slice(), from);
        while ahead != 0 {
            let (place, rest) = take_lowest(ahead, from);
            // SAFETY: `over` took the address of cells of `T`, which are dropped after the owner. The cell is filled, as said above, and not read
            // again.
            unsafe { cells.add(place).drop_in_place() };
            ahead = rest;
        }
        from += GROUP_WIDTH;
    }
}

impl Drop for Owner {
    #[inline]
    fn drop(&mut self) {
        if let Some(drop_values) = self.drop_values {
            drop_values(self);
        }
    }
}

impl Deref for Owner {
    type Target = Vec<u8>;

    #[inline(always)]
    fn deref(&self) -> &Vec<u8> {
        &self.tags
    }
}

impl DerefMut for Owner {
    #[inline(always)]
    fn deref_mut(&mut self) -> &mut Vec<u8> {
        &mut self.tags
    }
}
