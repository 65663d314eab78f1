//! Tests of tables of slots; values that count their drops, and a hasher that takes in nothing, with which bags are tested too.
#![tactic(auto)]

pub mod constant;
pub mod counted;
#[cfg(test)]
mod tests;
