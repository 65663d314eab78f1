//! Worked rows of the bag, with the results found by hand: calls and what they return, as lines of text.
#![tactic(auto)]

#[cfg(test)]
mod tests;
