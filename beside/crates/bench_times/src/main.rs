//! Measures bags. Each line of standard input says what is measured, `large`, `two`, `words`, `texts`, `common`, `copy`, `clone` or `growth`, how many
//! values there are, and how often it is done.
//!
//! Each result is a line with what was done, with how many values, and a sum. Standard error has the same lines, with how often it was done and
//! nanoseconds of the processor in place of the sum. `bench/map.rs` does the same with Rust's own map, and its sums have to be the same: those of
//! `stdout` are the map's.
#![tactic(auto)]

mod runs;
mod values;
mod wholes;

use anyhow::bail;

fn main(rt: HostRuntime) -> anyhow::Result<()> {
    for line in rt.lines(rt.alloc()) {
        let text = line?;
        let mut words = text.split_whitespace();
        let (Some(what), Some(many), Some(times)) = (words.next(), words.next(), words.next())
        else {
            bail!("not what, how many and how often: {text}");
        };
        runs::measure(&rt, what, many.parse()?, times.parse()?)?;
    }
    Ok(())
}
