//! Ten short programs to copy, one a module. Each works on a text or a list of its own, and writes its result under its name.
//! `docs/use/COOKBOOK.md` lists them.
#![tactic(auto)]

mod anagrams;
mod deliveries;
mod kmers;
mod own_types;
mod parts;
mod saved;
mod serde_rows;
mod stock;
mod top_ten;
mod votes;

use anyhow::Result;

fn main(rt: HostRuntime) -> Result<()> {
    let alloc = rt.alloc();
    let mut out = rt.stdout();
    anagrams::show(alloc, &mut out)?;
    votes::show(alloc, &mut out)?;
    kmers::show(alloc, &mut out)?;
    stock::show(alloc, &mut out)?;
    deliveries::show(alloc, &mut out)?;
    saved::show(alloc, &mut out)?;
    own_types::show(alloc, &mut out)?;
    serde_rows::show(alloc, &mut out)?;
    top_ten::show(alloc, &mut out)?;
    parts::show(alloc, &mut out)?;
    Ok(())
}
