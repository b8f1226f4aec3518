// A reader and a writer that note how they are called, and fail at a given call.
use std::cell::Cell;
use std::io;
use std::io::{Read, Write};

/// What a reader and a writer note.
#[derive(Drop)]
pub struct Notes {
    /// The number of reads, with the failed one.
    reads: Cell<usize>,
    /// The number of writes and flushes, with the failed one.
    calls: Cell<usize>,
    /// The number of bytes written, and the number of those that are flushed.
    written: Cell<usize>,
    flushed: Cell<usize>,
    /// Whether the number of flushed bytes was wrong at some read.
    is_late: Cell<bool>,
    /// Whether something other than the expected text was written.
    is_other: Cell<bool>,
}

impl Notes {
    pub fn new() -> Notes {
        Notes {
            reads: Cell::new(0),
            calls: Cell::new(0),
            written: Cell::new(0),
            flushed: Cell::new(0),
            is_late: Cell::new(false),
            is_other: Cell::new(false),
        }
    }

    /// The numbers of reads, of writes and flushes, of bytes written and of bytes flushed.
    pub fn counts(&self) -> [usize; 4] {
        [
            self.reads.get(),
            self.calls.get(),
            self.written.get(),
            self.flushed.get(),
        ]
    }

    /// Whether the expected text was written, and the expected bytes were flushed before each read.
    pub fn is_as_wanted(&self) -> bool {
        !self.is_late.get() && !self.is_other.get()
    }
}

/// Adds to a counter, and gives its old value.
fn count(counter: &Cell<usize>, more: usize) -> usize {
    let before = counter.get();
    counter.set(before.saturating_add(more));
    before
}

/// What one read gives.
#[derive(Clone, Copy)]
pub enum Pieces {
    /// The next line.
    Lines,
    /// The rest of the input.
    Whole,
}

/// A reader that fails at the read of a given number.
#[derive(Drop)]
pub struct NotingReader<'a> {
    left: &'a [u8],
    pieces: Pieces,
    failing: Option<usize>,
    notes: &'a Notes,
}

impl<'a> NotingReader<'a> {
    pub fn new(
        input: &'a str,
        pieces: Pieces,
        failing: Option<usize>,
        notes: &'a Notes,
    ) -> NotingReader<'a> {
        NotingReader {
            left: input.as_bytes(),
            pieces,
            failing,
            notes,
        }
    }

    /// The number of bytes of the first path's answers that must be flushed at a read: those of the
    /// answers to all lines that were read before.
    fn flushed_at(&self, read: usize) -> usize {
        match (self.pieces, read) {
            (_, 0) => 0,
            (Pieces::Lines, 1) => 7,
            (Pieces::Lines, 2) => 14,
            (Pieces::Lines, 3) => 21,
            _ => 34,
        }
    }

    fn next_piece(&self) -> usize {
        if matches!(self.pieces, Pieces::Lines) {
            for (at, byte) in self.left.iter().enumerate() {
                if *byte == b'\n' {
                    return at + 1;
                }
            }
        }
        self.left.len()
    }
}

impl Read for NotingReader<'_> {
    fn read(&mut self, buf: &mut [u8]) -> io::Result<usize> {
        let at = count(&self.notes.reads, 1);
        if self.flushed_at(at) != self.notes.flushed.get() {
            self.notes.is_late.set(true);
        }
        if self.failing == Some(at) {
            return Err(io::Error::from(io::ErrorKind::Interrupted));
        }
        let mut piece = self.left.get(..self.next_piece()).unwrap_or(&[]);
        let given = piece.read(buf)?;
        self.left = self.left.get(given..).unwrap_or(&[]);
        Ok(given)
    }
}

/// A writer that fails at the write or flush of a given number. It compares the output with a text.
#[derive(Drop)]
pub struct Noting<'a> {
    text: &'a [u8],
    failing: Option<usize>,
    notes: &'a Notes,
}

impl<'a> Noting<'a> {
    pub fn new(text: &'a str, failing: Option<usize>, notes: &'a Notes) -> Noting<'a> {
        Noting {
            text: text.as_bytes(),
            failing,
            notes,
        }
    }

    fn call(&mut self) -> io::Result<()> {
        if self.failing == Some(count(&self.notes.calls, 1)) {
            return Err(io::Error::from(io::ErrorKind::BrokenPipe));
        }
        Ok(())
    }
}

impl Write for Noting<'_> {
    fn write(&mut self, buf: &[u8]) -> io::Result<usize> {
        self.call()?;
        let at = count(&self.notes.written, buf.len());
        let wanted = self.text.get(at..at.saturating_add(buf.len()));
        if wanted != Some(buf) {
            self.notes.is_other.set(true);
        }
        Ok(buf.len())
    }

    fn flush(&mut self) -> io::Result<()> {
        self.call()?;
        self.notes.flushed.set(self.notes.written.get());
        Ok(())
    }
}
