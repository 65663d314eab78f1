//! What no clause says of joins and trees: that they are those found by hand, under each hash state, and how often a call
//! on two bags hashes.
mod hash_counts;
mod instances;
mod joins;
mod json;
mod letters;
