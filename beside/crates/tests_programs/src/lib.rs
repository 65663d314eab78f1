//! The tests of the crates that the programs are made of: words and their counts, lists with quantities, matches, movements, and what is
//! decided of a stock that is kept. Others are of whole runs of `hashbag_run`, and of files that are written whole or not at all.
#![tactic(auto)]

#[cfg(test)]
mod causes;
#[cfg(test)]
mod lines;
#[cfg(test)]
mod lists;
#[cfg(test)]
mod matches;
#[cfg(test)]
mod movements;
#[cfg(test)]
mod outputs;
#[cfg(test)]
mod runs;
#[cfg(test)]
mod stock;
#[cfg(test)]
mod streams;
#[cfg(test)]
mod texts;
#[cfg(test)]
mod words;
