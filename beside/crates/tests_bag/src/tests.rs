//! What no clause says of calls on one bag: that they succeed with ample memory, how often they hash, and what they drop and clone. `tests_rows`
//! has rows of calls with the results found by hand.
mod callers;
mod clones;
mod drops;
mod hash_counts;
mod instances;
mod keys;
mod owning_states;
mod refused_clones;
mod sizes;
mod transfers;
