//! Rows of `run edges`.

use crate::runs::check;
use overlay_geom::error::OverlayError;
use polyover_engine::engine::run;
use polyover_engine::exit::Exit;
use std::process::Abort;

#[test]
fn edges_with_their_fills(rt: HostRuntime) {
    check(
        &rt,
        b"subject 0 0 2 0 2 2 0 2\nrun edges NonZero\n",
        "edge 0 0 0 2 2\nedge 0 0 2 0 1\nedge 0 2 2 2 2\nedge 2 0 2 2 1\n",
        Exit::Answered,
    );
    check(
        &rt,
        b"subject 0 0 2 0 2 2 0 2\nsubject 2 0 4 0 4 2 2 2\nrun edges NonZero\n",
        "edge 0 0 0 2 2\nedge 0 0 2 0 1\nedge 0 2 2 2 2\nedge 2 0 4 0 1\nedge 2 2 4 2 2\nedge 4 0 4 2 1\n",
        Exit::Answered,
    );
    check(
        &rt,
        b"subject 0 0 2 0 2 2 0 2\nclip 2 0 4 0 4 2 2 2\nrun edges NonZero\n",
        "edge 0 0 0 2 2\nedge 0 0 2 0 1\nedge 0 2 2 2 2\nedge 2 0 2 2 9\nedge 2 0 4 0 4\n\
         edge 2 2 4 2 8\nedge 4 0 4 2 4\n",
        Exit::Answered,
    );
    check(&rt, b"run edges NonZero\n", "", Exit::Answered);
}

#[test]
fn line_ends_spaces_and_numbers(rt: HostRuntime) {
    check(
        &rt,
        b"  subject  007 -0 9 0 9 2 7 2 \r\n\r\n\r\nrun edges EvenOdd",
        "edge 7 0 7 2 2\nedge 7 0 9 0 1\nedge 7 2 9 2 2\nedge 9 0 9 2 1\n",
        Exit::Answered,
    );
}

#[test]
fn edges_that_cross_are_cut(rt: HostRuntime) {
    check(
        &rt,
        b"subject 0 0 10 10 10 0 0 10\nrun edges NonZero\n",
        "edge 0 0 0 10 2\nedge 0 0 5 5 1\nedge 0 10 5 5 2\nedge 5 5 10 0 1\nedge 5 5 10 10 2\nedge 10 0 10 10 1\n",
        Exit::Answered,
    );
    check(
        &rt,
        b"subject 0 0 10 10 10 0 0 10\nrun edges Positive\n",
        "edge 0 0 0 10 2\nedge 0 0 5 5 1\nedge 0 10 5 5 2\nedge 5 5 10 0 0\nedge 5 5 10 10 0\nedge 10 0 10 10 0\n",
        Exit::Answered,
    );
    check(
        &rt,
        b"subject 0 0 10 4 10 0 0 3\nrun edges NonZero\n",
        "edge 0 0 0 3 2\nedge 0 0 4 2 1\nedge 0 3 4 2 2\nedge 4 2 10 0 1\nedge 4 2 10 4 2\nedge 10 0 10 4 1\n",
        Exit::Answered,
    );
}

#[test]
fn edges_that_overlap_are_cut(rt: HostRuntime) {
    check(
        &rt,
        b"subject 0 0 4 0 4 2 0 2\nsubject 2 0 6 0 6 -2 2 -2\nrun edges NonZero\n",
        "edge 0 0 0 2 2\nedge 0 0 2 0 1\nedge 0 2 4 2 2\nedge 2 -2 2 0 2\nedge 2 -2 6 -2 1\n\
         edge 2 0 4 0 3\nedge 4 0 4 2 1\nedge 4 0 6 0 2\nedge 6 -2 6 0 1\n",
        Exit::Answered,
    );
}

// The way in which the engine ends on the input.
fn end_of(rt: &(impl Abort + Alloc), input: &[u8]) -> Exit {
    let mut reader = input;
    let mut written = Vec::new(rt.alloc());
    run(rt.alloc(), &mut reader, &mut written)
}

#[test]
fn splitting_that_does_not_settle_is_refused(rt: HostRuntime) {
    let settled = end_of(
        &rt,
        b"subject 2 0 0 64 2 -64\nsubject 1 0 0 65 -1 0\nrun edges NonZero\n",
    );
    assert!(rt; settled == Exit::Answered);
    check(
        &rt,
        b"subject 2 0 0 66 2 -66\nsubject 1 0 0 67 -1 0\nrun edges NonZero\n",
        "",
        Exit::Refused(OverlayError::NotSettled),
    );
    check(
        &rt,
        b"subject 2 0 0 100 2 -100\nsubject 1 0 0 101 -1 0\nrun edges NonZero\n",
        "",
        Exit::Refused(OverlayError::NotSettled),
    );
}
