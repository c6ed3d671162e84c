//! Readers and writers that fail.

use crate::runs::{check_reader, first_given};
use polyover_engine::engine::run;
use polyover_engine::exit::Exit;
use std::alloc::Allocator;
use std::io;
use std::io::{ErrorKind, Read, Write};
use std::process::Abort;

// Gives the bytes one by one, and fails at the read after some of them.
#[derive(Drop)]
struct FailingReader<'a> {
    bytes: &'a [u8],
    reads: u64,
}

impl Read for FailingReader<'_> {
    fn read(&mut self, buf: &mut [u8]) -> io::Result<usize> {
        if self.reads == 0 {
            return Err(ErrorKind::Other.into());
        }
        self.reads -= 1;
        let (given, rest) = first_given(self.bytes, buf);
        self.bytes = rest;
        Ok(given)
    }
}

// Takes one byte a write, and fails at the write after some of them, or takes none there. It may fail to flush.
#[derive(Drop)]
struct FailingWriter<A: Allocator> {
    taken: Vec<u8, A>,
    writes: u64,
    takes_none: bool,
    flushes: bool,
}

impl<A: Allocator> Write for FailingWriter<A> {
    fn write(&mut self, buf: &[u8]) -> io::Result<usize> {
        let Some(first) = buf.first() else {
            return Ok(0);
        };
        if self.writes == 0 {
            return if self.takes_none {
                Ok(0)
            } else {
                Err(ErrorKind::Other.into())
            };
        }
        self.writes -= 1;
        self.taken.push(*first)?;
        Ok(1)
    }

    fn flush(&mut self) -> io::Result<()> {
        if self.flushes {
            Ok(())
        } else {
            Err(ErrorKind::Other.into())
        }
    }
}

// Gives the bytes one by one, and is interrupted before each.
#[derive(Drop)]
struct InterruptedReader<'a> {
    bytes: &'a [u8],
    is_interrupted: bool,
}

impl Read for InterruptedReader<'_> {
    fn read(&mut self, buf: &mut [u8]) -> io::Result<usize> {
        self.is_interrupted = !self.is_interrupted;
        if self.is_interrupted {
            return Err(ErrorKind::Interrupted.into());
        }
        let (given, rest) = first_given(self.bytes, buf);
        self.bytes = rest;
        Ok(given)
    }
}

const SQUARE: &[u8] = b"subject 0 0 2 0 2 2 0 2\nrun edges NonZero\n";

const SQUARE_EDGES: &str = "edge 0 0 0 2 2\nedge 0 0 2 0 1\nedge 0 2 2 2 2\nedge 2 0 2 2 1\n";

#[test]
fn a_reader_that_fails(rt: HostRuntime) {
    let enough = SQUARE.len() as u64 + 1;
    for reads in 0..enough {
        let bytes = SQUARE;
        check_reader(&rt, FailingReader { bytes, reads }, "", Exit::Io);
    }
    let reader = FailingReader {
        bytes: SQUARE,
        reads: enough,
    };
    check_reader(&rt, reader, SQUARE_EDGES, Exit::Answered);
}

#[test]
fn a_reader_that_fails_after_a_bad_line(rt: HostRuntime) {
    let rows: [&[u8]; 2] = [
        b"subjects\nrun edges NonZero\n",
        b"subject 0 0 2 2 2 0 0 2\npoint 1 0\nrun contains\n",
    ];
    for bytes in rows {
        let enough = bytes.len() as u64 + 1;
        for reads in 0..enough {
            check_reader(&rt, FailingReader { bytes, reads }, "", Exit::Io);
        }
        let reads = enough;
        check_reader(&rt, FailingReader { bytes, reads }, "", Exit::BadInput(1));
    }
}

#[test]
fn an_interrupted_reader_is_asked_again(rt: HostRuntime) {
    let reader = InterruptedReader {
        bytes: SQUARE,
        is_interrupted: false,
    };
    check_reader(&rt, reader, SQUARE_EDGES, Exit::Answered);
}

// The writer takes as many bytes of the answer as it takes at all.
fn check_writer(
    rt: &(impl Abort + Alloc),
    writes: u64,
    takes_none: bool,
    flushes: bool,
    exit: Exit,
) {
    let mut reader = SQUARE;
    let mut writer = FailingWriter {
        taken: Vec::new(rt.alloc()),
        writes,
        takes_none,
        flushes,
    };
    let ended = run(rt.alloc(), &mut reader, &mut writer);
    let taken = &writer.taken[..];
    let is_beginning = taken.len() as u64 == writes && SQUARE_EDGES.as_bytes().starts_with(taken);
    assert!(rt; ended == exit && is_beginning, "after {writes} writes");
}

#[test]
fn a_writer_that_fails(rt: HostRuntime) {
    let enough = SQUARE_EDGES.len() as u64;
    for writes in 0..enough {
        check_writer(&rt, writes, false, true, Exit::Io);
        check_writer(&rt, writes, true, true, Exit::Io);
    }
    check_writer(&rt, enough, false, true, Exit::Answered);
    check_writer(&rt, enough, true, true, Exit::Answered);
}

#[test]
fn a_writer_that_does_not_flush(rt: HostRuntime) {
    check_writer(&rt, SQUARE_EDGES.len() as u64, false, false, Exit::Io);
}
