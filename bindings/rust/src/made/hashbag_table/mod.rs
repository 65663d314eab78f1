// Made by bindings/rust/make of crates/hashbag_table/src/lib.rt. Change that, or what `make` reads.
use crate::rattle::prelude::*;
// Distinct values with their counts, found by hashing: the map on which a counted multiset is built.
//
// A [`table::Table`] is a finite map from each distinct value to its stored instance and its count, which is at least 1. It keeps them in
// two tables of [`slots`].

#[path = "../../by_hand/hashbag_table/built.rs"]
mod built;
mod capacity;
#[path = "../../by_hand/hashbag_table/key.rs"]
pub mod key;
mod retain;
pub mod spare;
pub mod table;
pub mod walk;

pub use crate::made::hashbag_slots::slots;
pub use key::{Key, ToValue};
pub use spare::Spare;
pub use table::Table;
pub use walk::{DrainWalk, IntoWalk, Walk};
