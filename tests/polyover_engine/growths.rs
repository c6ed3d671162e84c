//! Each growth refused in turn, for each command: nothing is written.

use overlay_geom::error::OverlayError;
use polyover_engine::engine::run;
use polyover_engine::exit::Exit;
use refusing_alloc::refusing::Refusing;
use std::process::Abort;

// An input for each command, with its answer.
const ROWS: &[(&[u8], &str)] = &[
    (
        b"subject 0 0 2 0 2 2 0 2\nrun edges NonZero\n",
        "edge 0 0 0 2 2\nedge 0 0 2 0 1\nedge 0 2 2 2 2\nedge 2 0 2 2 1\n",
    ),
    (
        b"subject 0 0 9 0 9 9 0 9\nclip 3 3 6 3 6 6 3 6\nrun overlay Difference NonZero\n",
        "shape\n0 9 0 0 9 0 9 9\n3 3 3 6 6 6 6 3\n",
    ),
    (
        b"subject 0 0 9 0 9 9 0 9\nclip 3 3 6 3 6 6 3 6\nrun overlay Difference NonZero ogc\n",
        "shape\n0 9 0 0 9 0 9 9\n3 3 3 6 6 6 6 3\n",
    ),
    (
        b"subject 0 0 9 0 9 9 0 9\nsubject 1 1 8 1 8 8 1 8\nsubject 2 2 7 2 7 7 2 7\n\
          run hierarchy Subject EvenOdd\n",
        "shape\n0 9 0 0 9 0 9 9\n1 1 1 8 8 8 8 1\nshape\n2 7 2 2 7 2 7 7\nlink 0 1 1\n",
    ),
    (
        b"subject 1 1 3 1 3 3 1 3\nclip 0 0 4 0 4 4 0 4\nrun relate EvenOdd\n",
        "intersects true\ninteriors_intersect true\ntouches false\npoint_intersects false\n\
         within true\ndisjoint false\ncovers false\n",
    ),
    (
        b"subject 0 0 9 0 9 9 0 9\nline -3 3 12 3\nline 3 -3 3 12\nrun clip NonZero\n",
        "0 3 3 3 3 9\n3 0 3 3 9 3\n",
    ),
    (
        b"subject 0 0 9 0 9 9 0 9\nsubject 3 3 3 6 6 6 6 3\nline 0 1 9 1\nrun slice NonZero\n",
        "shape\n9 0 9 1 0 1 0 0\nshape\n9 1 9 9 0 9 0 1\n3 3 3 6 6 6 6 3\n",
    ),
    (
        b"subject 0 0 4 0 4 4 0 4\nrun tiles NonZero 2 9\n",
        "shape\n2 0 2 4 0 4 0 0\nshape\n4 0 4 4 2 4 2 0\n",
    ),
    (
        b"subject 0 0 4 0 4 4 0 4\npoint 2 2\npoint 9 9\nrun contains\n",
        "true\nfalse\n",
    ),
    (
        b"subject 0 0 4 0 4 4 0 4\npoint 2 2\npoint 4 1\npoint 9 9\nrun locate\n",
        "inside\nboundary\noutside\n",
    ),
];

// Returns whether the engine answers with this number of growths granted; if not, memory is refused, and none is left.
fn is_answered(rt: &(impl Abort + Alloc), granted: u64, input: &[u8], wanted: &str) -> bool {
    let memory = Refusing::new(rt.alloc(), granted);
    let mut reader = input;
    let mut written = Vec::new(rt.alloc());
    let ended = run(&memory, &mut reader, &mut written);
    assert!(rt; memory.left() == 0);
    if ended == Exit::Answered {
        assert!(rt; granted > 0 && &written[..] == wanted.as_bytes());
        return true;
    }
    assert!(rt; ended == Exit::Refused(OverlayError::Memory) && written.is_empty());
    false
}

// Lets each growth fail in turn, until all that are needed are granted.
fn refuse_each_growth(rt: &(impl Abort + Alloc), input: &[u8], wanted: &str) {
    for granted in 0..1000 {
        if is_answered(rt, granted, input, wanted) {
            return;
        }
    }
    assert!(rt; false, "never answered");
}

#[test]
fn each_growth_of_each_command(rt: HostRuntime) {
    for (input, wanted) in ROWS {
        refuse_each_growth(&rt, input, wanted);
    }
}
