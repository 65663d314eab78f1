//! The tests of what is done with whole bags.
#![tactic(auto)]

#[cfg(test)]
mod tests;
