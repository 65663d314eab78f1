//! A plain, slow bag with the same contracts, which the bag is compared with.
#![tactic(auto)]

pub mod plain;

pub use plain::PlainBag;
