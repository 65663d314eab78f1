//! What no clause says of whole bags: that the calls succeed with ample memory, and that counts, limits, tables and instances are those
//! found by hand, under each hash state. Also that pairs are in the order that Python finds, how much a few of them allocate, and how often
//! values are hashed.
mod bags;
mod calls;
mod hash_counts;
mod instances;
mod laws;
mod orders;
mod rows;
mod tables;
