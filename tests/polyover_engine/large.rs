//! Large inputs, and readers and writers of one byte a call that are interrupted now and then.

use crate::runs::first_given;
use polyover_engine::engine::run;
use polyover_engine::exit::Exit;
use std::alloc::Allocator;
use std::io;
use std::io::{ErrorKind, Read, Write};
use std::process::Abort;

// Gives the bytes one by one, and is interrupted at every third call.
#[derive(Drop)]
struct SlowReader<'a> {
    bytes: &'a [u8],
    calls: u64,
}

impl Read for SlowReader<'_> {
    fn read(&mut self, buf: &mut [u8]) -> io::Result<usize> {
        self.calls = self.calls.wrapping_add(1);
        if self.calls % 3 == 0 {
            return Err(ErrorKind::Interrupted.into());
        }
        let (given, rest) = first_given(self.bytes, buf);
        self.bytes = rest;
        Ok(given)
    }
}

// Takes one byte a call, and is interrupted at every third one; it counts the bytes since it was flushed.
#[derive(Drop)]
struct SlowWriter<A: Allocator> {
    taken: Vec<u8, A>,
    calls: u64,
    unflushed: u64,
    flushes: u64,
}

impl<A: Allocator> Write for SlowWriter<A> {
    fn write(&mut self, buf: &[u8]) -> io::Result<usize> {
        self.calls = self.calls.wrapping_add(1);
        if self.calls % 3 == 0 {
            return Err(ErrorKind::Interrupted.into());
        }
        let Some(first) = buf.first() else {
            return Ok(0);
        };
        self.taken.push(*first)?;
        self.unflushed = self.unflushed.wrapping_add(1);
        Ok(1)
    }

    fn flush(&mut self) -> io::Result<()> {
        self.calls = self.calls.wrapping_add(1);
        if self.calls % 3 == 0 {
            return Err(ErrorKind::Interrupted.into());
        }
        self.unflushed = 0;
        self.flushes = self.flushes.wrapping_add(1);
        Ok(())
    }
}

// Checks the output of the engine, reading and writing slowly, and that all of it was flushed.
fn check_slowly(rt: &(impl Abort + Alloc), input: &[u8], wanted: &[u8], exit: Exit) {
    let mut reader = SlowReader {
        bytes: input,
        calls: 0,
    };
    let mut writer = SlowWriter {
        taken: Vec::new(rt.alloc()),
        calls: 0,
        unflushed: 0,
        flushes: 0,
    };
    let ended = run(rt.alloc(), &mut reader, &mut writer);
    assert!(rt;
        ended == exit && &writer.taken[..] == wanted,
        "ended with {ended:?}"
    );
    let is_flushed = writer.unflushed == 0 && (ended != Exit::Answered || writer.flushes == 1);
    assert!(rt; is_flushed);
}

// The lines, this number of times, and then the last.
fn repeated<T: Abort + Alloc>(rt: &T, count: usize, lines: &[u8], last: &[u8]) -> Vec<u8, T::A> {
    let mut input = Vec::new(rt.alloc());
    for _ in 0..count {
        let pushed = input.extend_from_slice(lines);
        assert!(rt; pushed.is_ok());
    }
    let pushed = input.extend_from_slice(last);
    assert!(rt; pushed.is_ok());
    input
}

#[test]
fn an_input_of_300_kilobytes(rt: HostRuntime) {
    let points = repeated(&rt, 30_000, b"point 1 2\n", b"run contains\n");
    let wanted = repeated(&rt, 30_000, b"false\n", b"");
    assert!(&rt; points.len() > 300_000);
    check_slowly(&rt, &points, &wanted, Exit::Answered);
}

#[test]
fn a_line_of_20_kilobytes(rt: HostRuntime) {
    let mut input = repeated(&rt, 1, b"", b"subject");
    let points = repeated(&rt, 5_000, b" 1 2", b"\nrun overlay Subject NonZero\n");
    let pushed = input.extend_from_slice(&points);
    assert!(&rt; pushed.is_ok() && input.len() > 20_000);
    check_slowly(&rt, &input, b"", Exit::Answered);
}

#[test]
fn the_last_of_3000_lines_is_bad(rt: HostRuntime) {
    let input = repeated(&rt, 2_999, b"subject 0 0 4 0 4 4\n", b"run edges\n");
    check_slowly(&rt, &input, b"", Exit::BadInput(3_000));
}

#[test]
fn an_empty_answer_is_flushed(rt: HostRuntime) {
    check_slowly(&rt, b"run edges NonZero\n", b"", Exit::Answered);
}
