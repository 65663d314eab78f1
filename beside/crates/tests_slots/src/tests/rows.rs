//! Rows of text for what is below the bag. `tests_kit`, which has those of the bag, uses the bag itself.
use std::alloc::Global;
use std::fmt::Debug;
use std::test::Fail;

/// What has calls as rows.
pub trait Called {
    /// Makes a call, and returns the text of what it returns. `None` if there is no such call.
    fn answer(&mut self, alloc: Global, call: &str) -> Option<String>;
}

/// Returns the text that `Debug` writes of a value.
pub fn debug_of<T: Debug>(alloc: Global, value: &T) -> Option<String> {
    format!(in alloc; "{value:?}").ok()
}

// Makes the call of a row, and compares what it returns.
fn make_row<T: Called>(
    alloc: Global,
    called: &mut T,
    line: usize,
    row: &'static str,
) -> Result<(), Fail> {
    let (call, want) = row.split_once(" = ").unwrap_or((row, ""));
    let Some(got) = called.answer(alloc, call) else {
        return Err(Fail::new(format_args!("line {line}: no such call, in the row: {row}")));
    };
    if got.as_str() == want {
        return Ok(());
    }
    let got = got.as_str();
    Err(Fail::new(format_args!("line {line}: {got}, not {want}, in the row: {row}")))
}

/// Makes the calls of the rows in turn: each is a line with a call and what it returns, as `clear = ()`. Empty lines, names in brackets, and
/// lines that begin with `#` call nothing.
pub fn make_rows<T: Called>(alloc: Global, called: &mut T, rows: &'static str) -> Result<(), Fail> {
    let mut line = 0usize;
    for text in rows.lines() {
        line = line.saturating_add(1);
        let row = text.trim();
        if !row.is_empty() && !row.starts_with('[') && !row.starts_with('#') {
            make_row(alloc, called, line, row)?;
        }
    }
    Ok(())
}
