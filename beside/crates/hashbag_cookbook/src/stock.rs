//! Keeps a store that holds ten pieces, and reserves pieces for orders.
use anyhow::Result;
use hashbag::{BagError, FixedState, HashBag};
use hashbag::ops::sorted;
use std::alloc::Global;
use std::io::Write;

const DELIVERIES: [(&str, usize); 3] = [("shirt", 6), ("coat", 3), ("hat", 2)];

const ORDERS: [(&str, usize); 3] = [("shirt", 4), ("coat", 5), ("shirt", 2)];

// Inserts each delivery. One for which there is no place is sent back whole.
fn deliver<W: Write>(out: &mut W, stock: &mut HashBag<&'static str>) -> Result<()> {
    for (article, n) in DELIVERIES {
        match stock.insert_many(article, n) {
            Ok(before) => writeln!(out, "{n} {article} delivered, {before} before")?,
            Err(BagError::TooMany) => writeln!(out, "no place for {n} {article}")?,
            Err(error) => return Err(error.into()),
        }
    }
    Ok(())
}

// Moves the pieces of each order from the stock to the reserved ones, if all are in stock.
fn reserve<W: Write>(
    out: &mut W,
    stock: &mut HashBag<&'static str>,
    reserved: &mut HashBag<&'static str>,
) -> Result<()> {
    for (article, n) in ORDERS {
        let before = stock.contains(&article);
        if before < n {
            writeln!(out, "{n} {article} ordered, only {before} in stock")?;
        } else {
            reserved.insert_many(article, n)?;
            let left = stock.remove_up_to(&article, n);
            writeln!(out, "{n} {article} reserved, {left} left")?;
        }
    }
    Ok(())
}

/// Writes what becomes of each delivery and of each order, and then what is reserved.
pub fn show<W: Write>(alloc: Global, out: &mut W) -> Result<()> {
    writeln!(out, "stock")?;
    let mut stock = HashBag::with_limit(alloc, FixedState::new(), 10);
    let mut reserved = HashBag::new(alloc);
    deliver(out, &mut stock)?;
    reserve(out, &mut stock, &mut reserved)?;
    for (article, count) in sorted(alloc, &reserved)? {
        writeln!(out, "reserved: {count} {article}")?;
    }
    Ok(())
}
