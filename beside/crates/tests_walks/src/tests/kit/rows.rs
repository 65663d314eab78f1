//! How rows are read, and what their failures say.
use hashbag::BagError;
use std::alloc::Global;
use std::test::Fail;
use tests_kit::rows::failure_text;
use tests_kit::texts::{count, debug_of, is_text_of};
use tests_kit::{Row, rows_of};

const ROWS: &str = "
    first row
    # no row
    second";

const READ: &str = "[Row { line: 1, text: \"first row\" }, Row { line: 3, text: \"second\" }]";

#[test]
fn rows_know_their_lines(rt: HostRuntime) -> Result<(), Fail> {
    let read = debug_of(rt.alloc(), &rows_of(rt.alloc(), ROWS)?)?;
    is_text_of("rows", read.as_str(), READ)
}

#[test]
fn no_rows_fail(rt: HostRuntime) -> Result<(), Fail> {
    for rows in ["", "\n", "    # no row\n\n"] {
        match rows_of(rt.alloc(), rows) {
            Ok(_) => return Err(Fail::new(format_args!("rows in {rows:?}"))),
            Err(fail) => is_text_of("none", failure_text(fail).as_str(), "no rows")?,
        }
    }
    Ok(())
}

// Fails with an error of a bag.
fn failing_call() -> Result<(), Fail> {
    Err(BagError::TooMany)?;
    Ok(())
}

// Reads a word that is no number.
fn failing_word() -> Result<(), Fail> {
    let _number = count("x")?;
    Ok(())
}

// Returns what the test of a row fails with, and nothing if it doesn't fail.
fn failure_of(alloc: Global, outcome: Result<(), Fail>) -> Result<String, Fail> {
    let row = Row {
        line: 17,
        text: "insert 2 = 3",
    };
    match row.tested(outcome) {
        Ok(()) => Ok(String::new(alloc)),
        Err(fail) => Ok(String::from_str(alloc, failure_text(fail).as_str())?),
    }
}

#[test]
fn failures_say_line_and_row(rt: HostRuntime) -> Result<(), Fail> {
    let alloc = rt.alloc();
    let call = failure_of(alloc, failing_call())?;
    is_text_of(
        "a call",
        call.as_str(),
        "line 17: error: TooMany, in the row: insert 2 = 3",
    )?;
    let word = failure_of(alloc, failing_word())?;
    is_text_of(
        "a word",
        word.as_str(),
        "line 17: no number: x, in the row: insert 2 = 3",
    )?;
    is_text_of("none", failure_of(alloc, Ok(()))?.as_str(), "")
}
