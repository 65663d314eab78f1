// Made by bindings/rust/make of crates/hashbag_core/src/lib.rt. Change that, or what `make` reads.
use crate::rattle::prelude::*;
// A counted hash multiset: how often each of several values occurs, and how many occurrences there are in all. Users name it by
// `hashbag`.

pub mod bag;
pub mod entry;
pub mod iters;
pub mod joins;

pub use bag::{BagError, FixedState, HashBag, TryExtendError};
pub use entry::Entry;
pub use crate::made::hashbag_table::{Key, Spare, ToValue};
pub use iters::{Drain, IntoIter, Iter, SetIter};
pub use joins::{Difference, NotIn, OuterJoin, SignedDifference};
