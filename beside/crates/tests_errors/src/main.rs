//! The numbers and the texts of the library's errors. Each row of standard input has a name, a number and a text: that of one error, in the order
//! in which `errors` has them. A row is compared with the error, and the first one that differs ends the program. What is printed is the number of
//! rows.
//!
//! The file `stdin` is written by hand and is no copy of the code. A text that is renamed in the code stays in it as it was.
#![tactic(auto)]

use anyhow::{Result, bail};
use hashbag::{BagError, ItemError, JsonError};
use std::alloc::{AllocError, Global};
use std::fmt::{Debug, Display};

// The row of an error: its type and its name, its number, and its text.
fn row_of<E: Debug + Display>(
    alloc: Global,
    kind: &str,
    error: &E,
    number: u8,
) -> Result<String, AllocError> {
    format!(in alloc; "{kind}::{error:?} | {number} | {error}")
}

// The rows of all errors.
fn errors(alloc: Global) -> Result<Vec<String>, AllocError> {
    let mut rows = Vec::new(alloc);
    for error in [BagError::Memory, BagError::TooMany, BagError::BelowTotal] {
        rows.push(row_of(alloc, "BagError", &error, error.number())?)?;
    }
    for error in [
        JsonError::NotAnArray,
        JsonError::NotAPair(0),
        JsonError::BadCount(0),
        JsonError::BadItem(0),
        JsonError::TooMany(0),
        JsonError::NotAPair(1),
        JsonError::BadCount(20),
        JsonError::BadItem(300),
        JsonError::TooMany(18446744073709551615),
        JsonError::Memory,
        JsonError::BadLimit,
    ] {
        rows.push(row_of(alloc, "JsonError", &error, error.number())?)?;
    }
    for error in [ItemError::NotAnItem, ItemError::Memory] {
        rows.push(row_of(alloc, "ItemError", &error, error.number())?)?;
    }
    Ok(rows)
}

fn main(rt: HostRuntime) -> Result<()> {
    let alloc = rt.alloc();
    let errors = errors(alloc)?;
    let mut left = errors.iter();
    for line in rt.lines(alloc) {
        let line = line?;
        if line.starts_with('#') {
            continue;
        }
        match left.next() {
            Some(row) if row.as_str() == line.as_str() => {}
            Some(row) => bail!("{row}, not {line}"),
            None => bail!("no error has the row {line}"),
        }
    }
    if let Some(row) = left.next() {
        bail!("no row has the error {row}");
    }
    println!(rt; "{} rows", errors.len())?;
    Ok(())
}
