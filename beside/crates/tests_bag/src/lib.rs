//! The tests of calls on one bag.
#![tactic(auto)]

#[cfg(test)]
mod tests;
