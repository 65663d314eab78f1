// Made by bindings/rust/make of crates/hashbag_slots/src/tags.rt. Change that, or what `make` reads.
use crate::rattle::prelude::*;
// Tags of slots, a byte each: what a probe reads of a slot before it reads its cell.
//
// | Tag | Slot |
// |---|---|
// | 0 | Empty |
// | 1 | Removed |
// | 2 | Moved |
// | 128 plus the top 7 bits of the hash: its fingerprint | Live |

use crate::rattle::{AllocError, Global};

// The tag of an Empty slot.
pub const EMPTY: u8 = 0;

// The tag of a Removed slot.
pub const REMOVED: u8 = 1;

// The tag of a Moved slot.
pub const MOVED: u8 = 2;

// How many tags of no slot, all `MOVED`, come after the tags of the slots. So sixteen tags can be read from each slot on.
pub const GUARDS: usize = 16;

// The least tag of a Live slot.
pub const LEAST_LIVE: u8 = 128;

// Returns the tag of a Live slot whose value has this hash: 128 plus the top 7 bits of the hash. The place is chosen by lower bits.
#[inline(always)]
pub fn fingerprint_of(hash: u64) -> u8
{
    (hash >> 57) as u8 + LEAST_LIVE
}

// Returns the tags of `slots` Empty slots, and the guards after them.
//
// # Errors
//
// `AllocError` if the allocation fails. With `slots` 0 it can't fail.
pub fn empty_tags(alloc: Global, slots: usize) -> Result<Vec<u8>, AllocError>
{
    if slots == 0 {
        return Vec::with_capacity(alloc, 0);
    }
    let mut tags = crate::made::hashbag_slots::cells::empty_tags(slots + GUARDS)?;
    tags[slots..].fill(MOVED);
    Ok(tags)
}

// Makes each of the first `slots` tags Empty.
pub fn make_all_empty(tags: &mut [u8], slots: usize)
{
    tags[..slots].fill(EMPTY);
}
