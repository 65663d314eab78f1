// Made by bindings/rust/make of crates/hashbag_slots/src/lib.rt. Change that, or what `make` reads.
use crate::rattle::prelude::*;
// Tables of slots with open addressing: distinct values, each with a count, found by their hashes.
//
// This crate knows how values are stored in memory and how a probe finds them. A table here doesn't grow: `hashbag_table` decides how many
// slots there are, when a larger table is made, and when values are carried into it.

#[path = "../../by_hand/hashbag_slots/cells.rs"]
mod cells;
mod group;
#[path = "../../by_hand/hashbag_slots/key.rs"]
pub mod key;
mod live;
pub mod probe;
pub mod slots;
mod tags;
#[path = "../../by_hand/hashbag_slots/walk.rs"]
pub mod walk;
