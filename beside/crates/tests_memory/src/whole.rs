//! Whole runs of the program's text, over a reader and a writer that don't allocate.
use crate::checks::{Refusals, Wrong, check};
use hashbag_run_lib::execute::{BAD_LINE, DONE, NO_MEMORY, execute};
use std::alloc::Global;
use std::io;
use std::io::{Read, Write};

// The most bytes that a page takes.
const PAGE: usize = 150;

// Two insertions of a value, a removal and a count.
const STEPS: &str = "a insert 5\na insert 5\na remove 5\na count 5\n";

const OUTPUT: &str = "a count 0\na count 1\na count 2\na count 1\n\
    outer 5 1 0\ndifference 5 1\nsigned 5 1\nnot_in 5 1\na json [[5,1]]\nb json []\n";

// Steps on two bags, and what is written of their replies, the joins of the bags and their trees.
const TWO_BAGS: &str = "a many 2 7\nb insert 2\nb insert 9\n";

const JOINED: &str = "a count 0\nb count 0\nb count 0\nouter 2 7 1\nouter 9 0 1\n\
    difference 2 6\nsigned 2 6\nsigned 9 -1\n\
    a json [[2,7]]\nb json [[2,1],[9,1]]\n";

// A step that is a list.
const LIST: &str = "a retain 1 2 3 4\n";

const LISTED: &str = "a done\na json []\nb json []\n";

// An input whose third line is no step.
const BAD: &str = "a insert 5\n\nc insert 5\n";

// Gives its text in pieces of seven bytes.
#[derive(Drop)]
struct Pieces<'a> {
    left: &'a [u8],
}

impl Read for Pieces<'_> {
    fn read(&mut self, buffer: &mut [u8]) -> io::Result<usize> {
        let n = buffer.len().min(self.left.len()).min(7);
        buffer[..n].copy_from_slice(&self.left[..n]);
        self.left = &self.left[n..];
        Ok(n)
    }
}

// Keeps what is written.
#[derive(Drop)]
struct Page {
    bytes: [u8; PAGE],
    taken: usize,
}

impl Write for Page {
    fn write(&mut self, bytes: &[u8]) -> io::Result<usize> {
        let start = self.taken.min(PAGE);
        let n = bytes.len().min(PAGE - start);
        self.bytes[start..start + n].copy_from_slice(&bytes[..n]);
        self.taken = start + n;
        Ok(n)
    }

    fn flush(&mut self) -> io::Result<()> {
        Ok(())
    }
}

// Runs the program on an input. If an allocation failed, it writes so and nothing else.
fn writes(
    alloc: Global,
    input: &str,
    status: u8,
    wanted: &str,
    refusals: &mut Refusals,
) -> Result<(), Wrong> {
    let mut page = Page {
        bytes: [0; PAGE],
        taken: 0,
    };
    let mut pieces = Pieces {
        left: input.as_bytes(),
    };
    let got = execute(alloc, &mut pieces, &mut page);
    let written = &page.bytes[..page.taken.min(PAGE)];
    if got == NO_MEMORY {
        refusals.count();
        return check(written == b"no memory\n".as_slice(), "execute: no memory");
    }
    check(got == status, "execute: the status")?;
    check(written == wanted.as_bytes(), "execute: the text")
}

/// Runs over one bag, over two, with a step that is a list, and with a bad line.
pub fn executions(alloc: Global, refusals: &mut Refusals) -> Result<(), Wrong> {
    writes(alloc, STEPS, DONE, OUTPUT, refusals)?;
    writes(alloc, TWO_BAGS, DONE, JOINED, refusals)?;
    writes(alloc, LIST, DONE, LISTED, refusals)?;
    writes(alloc, BAD, BAD_LINE, "bad line 3\n", refusals)
}
