//! The tests of joins and of trees.
#![tactic(auto)]

#[cfg(test)]
mod tests;
