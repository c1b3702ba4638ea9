// Readers and writers that fail, interrupt, give and take little at a time, and count their calls.
use std::alloc::Global;
use std::io::{self, Error, ErrorKind, Read, Write};
use std::test::Fail;
use tool_commands::run::run;

/// What one call does in place of its work.
#[derive(Clone, Copy)]
pub struct Trouble {
    pub call: u32,
    pub kind: ErrorKind,
}

/// Gives its bytes, at most so many a call.
#[derive(Drop)]
pub struct Source<'a> {
    bytes: &'a [u8],
    most: usize,
    trouble: Option<Trouble>,
    pub calls: u32,
}

impl<'a> Source<'a> {
    /// A reader that fills its room.
    pub fn new(bytes: &'a [u8]) -> Source<'a> {
        Source {
            bytes,
            most: usize::MAX,
            trouble: None,
            calls: 0,
        }
    }

    /// A reader that gives a byte at a call, but for this call.
    pub fn troubled(bytes: &'a [u8], call: u32, kind: ErrorKind) -> Source<'a> {
        Source {
            bytes,
            most: 1,
            trouble: Some(Trouble { call, kind }),
            calls: 0,
        }
    }
}

impl Read for Source<'_> {
    fn read(&mut self, buf: &mut [u8]) -> io::Result<usize> {
        self.calls = self.calls.saturating_add(1);
        if let Some(error) = trouble_at(self.trouble, self.calls) {
            return Err(error);
        }
        let n = self.bytes.len().min(buf.len()).min(self.most);
        buf[..n].copy_from_slice(&self.bytes[..n]);
        let rest: &[u8] = self.bytes;
        self.bytes = &rest[n..];
        Ok(n)
    }
}

/// Gives a space at each call, and never ends.
#[derive(Drop)]
pub struct Endless {
    pub calls: u32,
}

impl Read for Endless {
    fn read(&mut self, buf: &mut [u8]) -> io::Result<usize> {
        self.calls = self.calls.saturating_add(1);
        match buf.first_mut() {
            Some(first) => {
                *first = b' ';
                Ok(1)
            }
            None => Ok(0),
        }
    }
}

/// Keeps what it is given, at most so many bytes a call.
#[derive(Drop)]
pub struct Sink {
    pub written: Vec<u8>,
    most: usize,
    trouble: Option<Trouble>,
    pub calls: u32,
}

impl Sink {
    /// A writer that takes all.
    pub fn new(alloc: Global) -> Sink {
        Sink {
            written: Vec::new(alloc),
            most: usize::MAX,
            trouble: None,
            calls: 0,
        }
    }

    /// A writer that takes a byte at a call, but for this call.
    pub fn troubled(alloc: Global, call: u32, kind: ErrorKind) -> Sink {
        Sink {
            written: Vec::new(alloc),
            most: 1,
            trouble: Some(Trouble { call, kind }),
            calls: 0,
        }
    }
}

impl Write for Sink {
    fn write(&mut self, buf: &[u8]) -> io::Result<usize> {
        self.calls = self.calls.saturating_add(1);
        if let Some(error) = trouble_at(self.trouble, self.calls) {
            return Err(error);
        }
        let n = buf.len().min(self.most);
        self.written.extend_from_slice(&buf[..n])?;
        Ok(n)
    }

    fn flush(&mut self) -> io::Result<()> {
        Ok(())
    }
}

fn trouble_at(trouble: Option<Trouble>, call: u32) -> Option<Error> {
    match trouble {
        Some(trouble) if trouble.call == call => Some(Error::from(trouble.kind)),
        _ => None,
    }
}

/// The words of a line, one after each bar.
pub fn words(alloc: Global, line: &str) -> Result<Vec<String>, Fail> {
    let mut words = Vec::new(alloc);
    for word in line.split('|').skip(1) {
        words.push(String::from_str(alloc, word)?)?;
    }
    Ok(words)
}

/// Runs the program on these words, and gives the status.
pub fn status<R: Read, W: Write>(
    alloc: Global,
    line: &str,
    reader: &mut R,
    writer: &mut W,
) -> Result<u8, Fail> {
    let words = words(alloc, line)?;
    Ok(run(alloc, words.as_slice(), reader, writer))
}
