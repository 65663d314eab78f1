//! A reader and a writer in memory, for whole runs of the program. Either fails at a read or a write of a given number, or never.
use std::alloc::Global;
use std::io::{ErrorKind, Read, Write};
use std::{io, str};

// Gives its text in pieces of at most `piece` bytes. The read of the number `fails_at`, from 1, fails; no read if that is 0.
#[derive(Drop)]
pub struct Pieces<'a> {
    left: &'a [u8],
    pub piece: usize,
    pub reads: usize,
    fails_at: usize,
}

impl<'a> Pieces<'a> {
    pub fn new(text: &'a [u8], fails_at: usize) -> Pieces<'a> {
        Pieces {
            left: text,
            piece: 7,
            reads: 0,
            fails_at,
        }
    }
}

impl Read for Pieces<'_> {
    fn read(&mut self, buffer: &mut [u8]) -> io::Result<usize> {
        self.reads = self.reads.saturating_add(1);
        if self.reads == self.fails_at {
            return Err(io::Error::from(ErrorKind::Interrupted));
        }
        let n = buffer.len().min(self.left.len()).min(self.piece);
        buffer[..n].copy_from_slice(&self.left[..n]);
        self.left = &self.left[n..];
        Ok(n)
    }
}

// Takes at most seven bytes at a write and keeps them. The write of the number `fails_at`, from 1, fails, or takes
// no byte; no write if that is 0.
#[derive(Drop)]
pub struct Sink {
    pub taken: Vec<u8>,
    pub writes: usize,
    fails_at: usize,
    takes_none: bool,
}

impl Sink {
    pub fn new(alloc: Global, fails_at: usize, takes_none: bool) -> Sink {
        Sink {
            taken: Vec::new(alloc),
            writes: 0,
            fails_at,
            takes_none,
        }
    }

    // What was written, as a text.
    pub fn text(&self) -> &str {
        str::from_utf8(self.taken.as_slice()).unwrap_or("not a text")
    }
}

impl Write for Sink {
    fn write(&mut self, bytes: &[u8]) -> io::Result<usize> {
        self.writes = self.writes.saturating_add(1);
        if self.writes == self.fails_at {
            return if self.takes_none {
                Ok(0)
            } else {
                Err(io::Error::from(ErrorKind::Interrupted))
            };
        }
        let n = bytes.len().min(7);
        self.taken.extend_from_slice(&bytes[..n])?;
        Ok(n)
    }

    fn flush(&mut self) -> io::Result<()> {
        Ok(())
    }
}
