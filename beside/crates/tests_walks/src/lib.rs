//! The tests of walks over a bag, of whole runs of steps, and of the kit of tests.
#![tactic(auto)]

#[cfg(test)]
mod tests;
