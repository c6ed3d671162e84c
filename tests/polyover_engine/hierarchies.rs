//! Shapes in holes of other shapes, as the program writes them.

use crate::runs::check;
use polyover_engine::exit::Exit;
use std::fmt::Write as _;
use std::process::Abort;

const NEST: &str = "subject 0 0 100 0 100 100 0 100\nsubject 10 10 90 10 90 90 10 90\n\
    subject 20 20 80 20 80 80 20 80\nsubject 30 30 70 30 70 70 30 70\nsubject 40 40 60 40 60 60 40 60\n";

const PAIR: &str = "subject 0 0 100 0 100 100 0 100\nsubject 10 10 90 10 90 90 10 90\n\
    subject 20 20 30 20 30 30 20 30\nsubject 60 60 70 60 70 70 60 70\n";

const ISLAND: &str = "subject 0 0 10 0 10 10 0 10\nsubject 2 2 2 8 8 8 8 2\nsubject 2 5 4 4 4 6\n";

// Checks the output of the engine for a hierarchy of the contours.
fn check_hierarchy(rt: &(impl Abort + Alloc), contours: &str, command: &str, wanted: &str) {
    let mut input = String::new(rt.alloc());
    let made = write!(input, "{contours}run hierarchy {command}\n");
    assert!(rt; made.is_ok());
    check(rt, input.as_bytes(), wanted, Exit::Answered);
}

#[test]
fn shapes_in_holes(rt: HostRuntime) {
    let rows = [
        (
            NEST,
            "Subject EvenOdd",
            "shape\n0 100 0 0 100 0 100 100\n10 10 10 90 90 90 90 10\n\
             shape\n20 80 20 20 80 20 80 80\n30 30 30 70 70 70 70 30\n\
             shape\n40 60 40 40 60 40 60 60\nlink 0 1 1\nlink 1 3 2\n",
        ),
        (
            PAIR,
            "Subject EvenOdd",
            "shape\n0 100 0 0 100 0 100 100\n10 10 10 90 90 90 90 10\n\
             shape\n20 30 20 20 30 20 30 30\nshape\n60 70 60 60 70 60 70 70\n\
             link 0 1 1\nlink 0 1 2\n",
        ),
        (
            NEST,
            "Subject EvenOdd clockwise",
            "shape\n0 0 0 100 100 100 100 0\n10 90 10 10 90 10 90 90\n\
             shape\n20 20 20 80 80 80 80 20\n30 70 30 30 70 30 70 70\n\
             shape\n40 40 40 60 60 60 60 40\nlink 0 1 1\nlink 1 3 2\n",
        ),
        (
            PAIR,
            "Subject EvenOdd clockwise",
            "shape\n0 0 0 100 100 100 100 0\n10 90 10 10 90 10 90 90\n\
             shape\n20 20 20 30 30 30 30 20\nshape\n60 60 60 70 70 70 70 60\n\
             link 0 1 1\nlink 0 1 2\n",
        ),
        (
            ISLAND,
            "Subject EvenOdd",
            "shape\n0 10 0 0 10 0 10 10\n2 2 2 5 4 4 4 6 2 5 2 8 8 8 8 2\n",
        ),
        (
            ISLAND,
            "Subject EvenOdd ogc",
            "shape\n0 10 0 0 10 0 10 10\n2 2 2 8 8 8 8 2\nshape\n4 6 2 5 4 4\nlink 0 1 1\n",
        ),
        (
            ISLAND,
            "Subject EvenOdd clockwise ogc",
            "shape\n0 0 0 10 10 10 10 0\n2 2 8 2 8 8 2 8\nshape\n2 5 4 6 4 4\nlink 0 1 1\n",
        ),
        ("", "Union NonZero", ""),
    ];
    for (contours, command, wanted) in rows {
        check_hierarchy(&rt, contours, command, wanted);
    }
}

// An island below the minimum area is left out with its link, and a small outline with the contents of its hole.
#[test]
fn small_shapes_have_no_links(rt: HostRuntime) {
    let rows = [
        (
            "Subject EvenOdd min 401",
            "shape\n0 100 0 0 100 0 100 100\n10 10 10 90 90 90 90 10\n\
             shape\n20 80 20 20 80 20 80 80\n30 30 30 70 70 70 70 30\nlink 0 1 1\n",
        ),
        (
            "Subject EvenOdd min 6401",
            "shape\n0 100 0 0 100 0 100 100\n",
        ),
    ];
    for (command, wanted) in rows {
        check_hierarchy(&rt, NEST, command, wanted);
    }
}
