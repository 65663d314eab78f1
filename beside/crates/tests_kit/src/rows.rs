//! Tests as rows of text. Each row knows its line. A failure of a row has the line and the row.
use std::alloc::Global;
use std::cell::Cell;
use std::fmt::{Display, InlineText};
use std::io;
use std::io::Eprint;
use std::process::Termination;
use std::test::Fail;

/// A row.
#[derive(Clone, Copy, Debug)]
pub struct Row {
    /// How many lines below the text's opening quote the row is.
    pub line: usize,
    /// The row itself.
    pub text: &'static str,
}

/// Returns the rows of a text, one a line, and fails if there is none. Empty lines, and lines that begin with `#`, are skipped. Spaces before
/// and after a row are removed.
pub fn rows_of(alloc: Global, text: &'static str) -> Result<Vec<Row>, Fail> {
    let mut list = Vec::new(alloc);
    let mut line = 0usize;
    for row in text.lines() {
        let text = row.trim();
        if !text.is_empty() && !text.starts_with('#') {
            list.push(Row { line, text })?;
        }
        line = line.saturating_add(1);
    }
    if list.is_empty() {
        return Err(Fail::new("no rows"));
    }
    Ok(list)
}

const TEXT_CAPACITY: usize = 512;

// Keeps the text that a failure prints.
#[derive(Drop)]
struct Printed {
    text: Cell<InlineText<{ TEXT_CAPACITY }>>,
}

impl Eprint for Printed {
    fn eprint<D: Display + Drop>(&self, value: D) -> io::Result<()> {
        self.text.set(InlineText::of(value));
        Ok(())
    }

    fn eprintln<D: Display + Drop>(&self, value: D) -> io::Result<()> {
        self.eprint(value)
    }
}

/// Returns the text of a failure. Only `report` shows the text of a `Fail`, as at the end of a test; so it reports to `Printed` here.
pub fn failure_text(fail: Fail) -> InlineText<{ TEXT_CAPACITY }> {
    let printed = Printed {
        text: Cell::new(InlineText::new()),
    };
    let ended: Result<(), Fail> = Err(fail);
    let _status = ended.report(&printed);
    printed.text.get()
}

impl Row {
    /// Returns what the test of this row returned. If it failed, the failure also says the line and the row.
    pub fn tested(&self, outcome: Result<(), Fail>) -> Result<(), Fail> {
        let Err(fail) = outcome else {
            return Ok(());
        };
        let why = failure_text(fail);
        let (line, text) = (self.line, self.text);
        Err(Fail::new(format_args!("line {line}: {}, in the row: {text}", why.as_str())))
    }
}
