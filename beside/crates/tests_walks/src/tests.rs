//! What no clause says of walks, joins and whole runs: that what they give and reply is what was found by hand, and what plain lists
//! of occurrences give, under each hash state.
mod agreement;
mod carry;
mod definitions;
mod kit;
mod met;
mod prints;
mod steps;
mod walks;
