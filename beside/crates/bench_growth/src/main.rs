//! Uses bags that have just grown, or are about to. Each line of standard input names two bags, the number `n` of their values, and the uses of
//! these bags, which follow one another.
//!
//! Each use prints a line that ends with a number, which follows from `n` by arithmetic. `bench/growth` measures that the work of each use grows
//! as `n` does.
#![tactic(auto)]

mod bags;
mod fills;
mod joins;
mod walks;

use anyhow::{Result, bail};
use bags::bags;
use hashbag::HashBag;
use std::alloc::Global;

// Does the use of that name, and returns its number.
fn number(
    alloc: Global,
    what: &str,
    bag: &mut HashBag<u64>,
    other: &mut HashBag<u64>,
    n: u64,
) -> Result<u64> {
    if let Some(number) = walks::walked(alloc, what, bag)? {
        return Ok(number);
    }
    if let Some(number) = joins::joined(alloc, what, bag, other)? {
        return Ok(number);
    }
    if let Some(number) = fills::filled(alloc, what, bag, n)? {
        return Ok(number);
    }
    bail!("no such use: {what}")
}

fn main(rt: HostRuntime) -> Result<()> {
    let alloc = rt.alloc();
    for line in rt.lines(alloc) {
        let line = line?;
        let mut words = line.split_whitespace();
        let (Some(which), Some(size)) = (words.next(), words.next()) else {
            bail!("no bags: {line}");
        };
        let n: u64 = size.parse()?;
        let (mut bag, mut other) = bags(alloc, which, n)?;
        for what in words {
            let number = number(alloc, what, &mut bag, &mut other, n)?;
            println!(rt; "{which} {n} {what} {number}")?;
        }
    }
    Ok(())
}
