// Made by bindings/rust/make of crates/hashbag_slots/src/group.rt. Change that, or what `make` reads.
use crate::rattle::prelude::*;
// Sixteen tags at once.

use crate::made::hashbag_slots::tags::{EMPTY, LEAST_LIVE};
use crate::sixteen::u8x16;

// How many tags are read at once.
pub const GROUP_WIDTH: usize = 16;

// Returns the number of the lowest of 16 bits that is set, 16 if none is.
#[inline(always)]
fn first_set(bits: u64) -> usize
{
    if bits == 0 {
        GROUP_WIDTH
    } else {
        bits.trailing_zeros() as usize
    }
}

// Returns how many of the 16 tags from the place `from` on come before the first that is `tag`, 16 if none is `tag`.
#[inline(always)]
pub fn first_equal(tags: &[u8], from: usize, tag: u8) -> usize
{
    let equal = u8x16::at(tags, from).simd_eq(u8x16::splat(tag));
    first_set(equal.to_bitmask())
}

// Returns how many of the 16 slots from the place `from` on come before the first Live one, 16 if none is Live.
#[inline(always)]
pub fn first_live(tags: &[u8], from: usize) -> usize
{
    let live = u8x16::at(tags, from).simd_ge(u8x16::splat(LEAST_LIVE));
    first_set(live.to_bitmask())
}

// Returns how many of the 16 slots from the place `from` on come before the first that is not Live, 16 if all are Live.
#[inline(always)]
pub fn first_not_live(tags: &[u8], from: usize) -> usize
{
    let free = u8x16::at(tags, from).simd_lt(u8x16::splat(LEAST_LIVE));
    first_set(free.to_bitmask())
}

// Returns a mask of the 16 tags from the place `from` on: bit i is set if the tag at `from + i` is `tag`.
#[inline(always)]
pub fn match_tag(tags: &[u8], from: usize, tag: u8) -> u64
{
    let equal = u8x16::at(tags, from).simd_eq(u8x16::splat(tag));
    equal.to_bitmask()
}

// Returns a mask of the 16 slots from the place `from` on: bit i is set if the slot at `from + i` is Live.
#[inline(always)]
pub fn match_live(tags: &[u8], from: usize) -> u64
{
    let live = u8x16::at(tags, from).simd_ge(u8x16::splat(LEAST_LIVE));
    live.to_bitmask()
}

// Returns the place of the lowest set bit. Bit i is of the place `from + i`.
#[inline(always)]
pub fn lowest(bits: u64, from: usize) -> usize
{
    from + bits.trailing_zeros() as usize
}

// Returns the place of the lowest set bit, and the bits without it. Bit i is of the place `from + i`.
//
// If the bits are a mask of a test, the returned place is the first that passes the test. The returned bits are the mask of the test at the places
// after that place.
#[inline(always)]
pub fn take_lowest(bits: u64, from: usize) -> (usize, u64)
{
    (from + bits.trailing_zeros() as usize, bits & (bits - 1))
}

// Returns a mask of the 16 tags from the place `from` on, and whether one of the 16 is Empty. Bit i is set if the tag at `from + i` is `tag`, and no
// tag from `from` to there is Empty.
#[inline(always)]
pub fn match_tag_before_empty(tags: &[u8], from: usize, tag: u8) -> (u64, bool)
{
    let empty = match_tag(tags, from, EMPTY);
    let equal = match_tag(tags, from, tag);
    // Subtracting 1 sets the bits below the first Empty tag and clears its own. The bits set above it are of other Empty tags, which aren't
    // `tag`, so `equal` has none of them. Without an Empty tag all bits are set.
    (equal & empty.wrapping_sub(1), empty != 0)
}
