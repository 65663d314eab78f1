// Made by bindings/rust/make of crates/hashbag_ops/src/lib.rt. Change that, or what `make` reads.
use crate::rattle::prelude::*;
// Operations on whole bags: sums, common parts, differences, the greater of both counts, whether one bag has all of another, the counts in the order
// of their values, and the most common values.
//
// Each contract is a sentence about counts: how often each value occurs afterwards, from how often it occurred before. What follows from
// several calls together is proved in [`laws`].

pub mod combine;
pub mod compare;
pub mod laws;
pub mod order;
pub mod third;

pub use combine::{keep_common, keep_most, merge, merge_ref, take_away};
pub use compare::{contains_all, is_disjoint};
pub use order::{counts, max_count, most_common, sorted};
pub use third::{intersection, sum, union};
