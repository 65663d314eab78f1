//! A counted hash multiset, or bag: it stores each distinct value once, with its count.
//!
//! [`HashBag`] has the names and the meaning of the crate `hashbag` 0.1.13, and more: a limit for the total, methods that return an error if an
//! allocation fails, growth without a pause, and operations on whole bags.
//!
//! # Examples
//!
//! ```
//! use hashbag::HashBag;
//!
//! let words: HashBag<&str> = "the cat and the hat".split(' ').collect();
//! assert_eq!(words.len(), 5);
//! assert_eq!(words.set_len(), 4);
//! assert_eq!(words.contains("the"), 2);
//! ```
//!
//! # Features
//!
//! - `serde`: a bag is serialized as a sequence of pairs of a value and its count.
//! - `amortize`: does nothing. The original has it; here growth is always spread over later insertions.
//! - `check`: checks each access to a slot's memory at run time, to test this crate.
//!
//! # What is proved
//!
//! The modules in `src/made` are made from a program in Rattle, a Rust with contracts. Its prover shows that each function meets its contract,
//! doesn't overflow and ends. A script takes the contracts out; README says what else it changes. The proofs are about types whose `==` is an
//! equivalence and whose equal values hash alike, and about calls in which nothing panics. [`HashBag`] says what holds for other types and after
//! panics.
#![deny(missing_docs, missing_debug_implementations, unsafe_code, unsafe_op_in_unsafe_fn)]

#[cfg(not(target_pointer_width = "64"))]
compile_error!("hashbag is for targets with pointers of 64 bits");

// By hand: the public types and methods, with their documentation, bounds, errors and panics. Each calls the proved code, and keeps the total right
// if a value's own code panics.
mod bag;
mod entry;
mod error;
mod iter;
pub mod join;
mod ops;
#[cfg(feature = "serde")]
mod serde;

// By hand: what the sources use of Rattle's library.
#[allow(dead_code, missing_docs)]
mod rattle;
#[allow(dead_code, missing_docs)]
mod sixteen;

/// The proved modules, lowest first, each named as its crate. bindings/rust/make of the repository makes them. They name files of src/by_hand, which
/// stand in the place of a source or are modules more.
#[allow(missing_docs, missing_debug_implementations, dead_code, unused, unreachable_pub, non_camel_case_types, clippy::all)]
#[rustfmt::skip]
mod made {
    /// One table of slots: memory, probing, the carry into another table.
    pub mod hashbag_slots;
    /// Two such tables: growth, look-ups in both.
    pub mod hashbag_table;
    /// The bag: counts, the total, its limit, entries, walks.
    pub mod hashbag_core;
    /// Operations on whole bags.
    pub mod hashbag_ops;
}

pub use bag::HashBag;
pub use entry::Entry;
pub use error::BagError;
pub use iter::{Drain, IntoIter, Iter, SetIter};
