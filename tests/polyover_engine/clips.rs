//! Rows of `run clip`.

use crate::runs::check;
use overlay_geom::error::OverlayError;
use polyover_engine::exit::Exit;
use std::fmt::Write as _;
use std::process::Abort;

const SQUARE: &str = "subject -10 -10 -10 10 10 10 10 -10\n";

const PATH: &str = "line -20 10 -20 0 0 0 0 10 5 10 20 -5 5 -5 0 -10 -5 -5 -15 -15\n";

// Checks the output of the engine for lines, clipped by the contours.
fn check_clip(rt: &(impl Abort + Alloc), contours: &str, lines: &str, rule: &str, wanted: &str) {
    let mut input = String::new(rt.alloc());
    let made = write!(input, "{contours}{lines}run clip {rule}\n");
    assert!(rt; made.is_ok());
    check(rt, input.as_bytes(), wanted, Exit::Answered);
}

#[test]
fn a_line_through_a_square(rt: HostRuntime) {
    let rows = [
        ("NonZero", "0 -10 0 10\n"),
        ("NonZero invert", "0 -15 0 -10\n0 10 0 15\n"),
        ("NonZero boundary", "0 -10 0 10\n"),
        ("EvenOdd", "0 -10 0 10\n"),
        // the square is clockwise
        ("Negative", "0 -10 0 10\n"),
        ("Positive", ""),
        ("Positive invert", "0 -15 0 -10 0 10 0 15\n"),
    ];
    for (rule, wanted) in rows {
        check_clip(&rt, SQUARE, "line 0 -15 0 15\n", rule, wanted);
    }
}

// A direction is passed once, however often a line runs so.
#[test]
fn lines_in_both_directions(rt: HostRuntime) {
    let both = "line 0 -15 0 15\nline 0 15 0 -15\nline 0 -15 0 15\n";
    check_clip(&rt, SQUARE, both, "NonZero", "0 -10 0 10 0 -10\n");
    check_clip(&rt, SQUARE, "line 0 15 0 -15\n", "NonZero", "0 10 0 -10\n");
}

// The words of the options stand in any order.
#[test]
fn a_line_along_a_side(rt: HostRuntime) {
    let whole = "-10 -15 -10 -10 -10 10 -10 15\n";
    let rows = [
        ("NonZero", ""),
        ("NonZero boundary", "-10 -10 -10 10\n"),
        ("NonZero invert", "-10 -15 -10 -10\n-10 10 -10 15\n"),
        ("NonZero invert boundary", whole),
        ("NonZero boundary invert", whole),
    ];
    for (rule, wanted) in rows {
        check_clip(&rt, SQUARE, "line -10 -15 -10 15\n", rule, wanted);
    }
}

#[test]
fn a_path_in_and_out(rt: HostRuntime) {
    let below = "10 -5 5 -5 0 -10 -5 -5 -10 -10\n";
    let mut wanted = String::new(rt.alloc());
    let made = write!(wanted, "{below}-10 0 0 0 0 10\n5 10 10 5\n");
    assert!(&rt; made.is_ok());
    check_clip(&rt, SQUARE, PATH, "NonZero", &wanted);
    let mut with_boundary = String::new(rt.alloc());
    let made = write!(with_boundary, "{below}-10 0 0 0 0 10 5 10 10 5\n");
    assert!(&rt; made.is_ok());
    check_clip(&rt, SQUARE, PATH, "NonZero boundary", &with_boundary);
}

// Where lines meet, the first edge in order goes on.
#[test]
fn a_fork(rt: HostRuntime) {
    check_clip(
        &rt,
        SQUARE,
        "line 0 0 5 5\nline -5 0 0 0\nline 0 0 5 -5\n",
        "NonZero",
        "-5 0 0 0 5 -5\n0 0 5 5\n",
    );
}

#[test]
fn shapes_with_corners(rt: HostRuntime) {
    let rows = [
        (
            "subject -1 0 1 0 0 1\n",
            "line 0 -1 0 2\n",
            "NonZero",
            "0 0 0 1\n",
        ),
        (
            "subject -1 0 1 0 0 1\n",
            "line 0 -1 0 2\n",
            "NonZero invert",
            "0 -1 0 0\n0 1 0 2\n",
        ),
        (
            "subject -1 -1 1 -1 1 1 -1 1\n",
            "line -1 -1 1 -1\n",
            "NonZero",
            "",
        ),
        (
            "subject -1 -1 1 -1 1 1 -1 1\n",
            "line -1 -1 1 -1\n",
            "NonZero boundary",
            "-1 -1 1 -1\n",
        ),
        (
            "subject 0 0 2 0 2 2 1 0 0 2\n",
            "line -3 2 3 2\n",
            "NonZero",
            "",
        ),
        (
            "subject -2 -2 2 -2 3 0 -3 0\n",
            "line -4 1 -2 -2 2 -2 4 1\n",
            "NonZero",
            "",
        ),
        (
            "subject -2 -2 2 -2 3 0 -3 0\n",
            "line -4 1 -2 -2 2 -2 4 1\n",
            "NonZero boundary",
            "-2 -2 2 -2\n",
        ),
    ];
    for (contours, lines, rule, wanted) in rows {
        check_clip(&rt, contours, lines, rule, wanted);
    }
}

// Without a shape all lies outside. An open line does not run back to its first point, and a line of less than two
// points adds nothing.
#[test]
fn few_points(rt: HostRuntime) {
    check_clip(&rt, "", "line 0 0 10 0\n", "NonZero invert", "0 0 10 0\n");
    check_clip(
        &rt,
        "subject\n",
        "line 0 0 4 0 4 4\n",
        "NonZero invert",
        "0 0 4 0 4 4\n",
    );
    check_clip(&rt, "", "", "NonZero", "");
    check_clip(&rt, SQUARE, "", "NonZero", "");
    let none = "line\nline 1 1\nline 2 2 2 2\n";
    check_clip(&rt, SQUARE, none, "NonZero", "");
    check_clip(&rt, SQUARE, none, "NonZero invert boundary", "");
}

// A hole is outside, and so is what contours under EvenOdd fill twice.
#[test]
fn a_line_through_a_hole(rt: HostRuntime) {
    let ring = "subject 0 0 9 0 9 9 0 9\nsubject 3 3 3 6 6 6 6 3\n";
    for fill in ["EvenOdd", "NonZero"] {
        check_clip(&rt, ring, "line -1 4 10 4\n", fill, "0 4 3 4\n6 4 9 4\n");
    }
    let twice = "subject 0 0 9 0 9 9 0 9\nsubject 0 0 9 0 9 9 0 9\n";
    check_clip(&rt, twice, "line -1 4 10 4\n", "EvenOdd", "");
    check_clip(&rt, twice, "line -1 4 10 4\n", "NonZero", "0 4 9 4\n");
}

// The clip and the points are read, and change nothing; nor does the order of the lines.
#[test]
fn what_is_not_used(rt: HostRuntime) {
    let contours = "clip -20 -20 20 -20 20 20 -20 20\npoint 0 0\nline 0 -15 0 15\n";
    check_clip(&rt, contours, SQUARE, "NonZero", "0 -10 0 10\n");
    check(
        &rt,
        b"subject 0 0 2 0 2 2 0 2\nline -1 1 3 1\nrun overlay Subject NonZero\n",
        "shape\n0 2 0 0 2 0 2 2\n",
        Exit::Answered,
    );
    check(
        &rt,
        b"line 0 0 4 4\nrun edges NonZero\n",
        "",
        Exit::Answered,
    );
}

#[test]
fn lines_at_the_ends_of_the_coordinate_range(rt: HostRuntime) {
    check_clip(
        &rt,
        "subject -4611686018427387903 -4611686018427387903 4611686018427387903 -4611686018427387903 \
         4611686018427387903 4611686018427387903 -4611686018427387903 4611686018427387903\n",
        "line -4611686018427387903 0 4611686018427387903 0\n",
        "NonZero",
        "-4611686018427387903 0 4611686018427387903 0\n",
    );
}

#[test]
fn splitting_that_does_not_settle(rt: HostRuntime) {
    check(
        &rt,
        b"subject 2 0 0 66 2 -66\nsubject 1 0 0 67 -1 0\nrun clip NonZero\n",
        "",
        Exit::Refused(OverlayError::NotSettled),
    );
}

#[test]
fn bad_commands(rt: HostRuntime) {
    let rows: [&[u8]; 12] = [
        b"run clip",
        b"run clip Odd",
        b"run clip nonzero",
        b"run clip NonZero NonZero",
        b"run clip Union NonZero",
        b"run clip invert NonZero",
        b"run clip NonZero keep",
        b"run clip NonZero Invert",
        b"run clip NonZero invert invert",
        b"run clip NonZero boundary boundary",
        b"run clip NonZero invert boundary invert",
        b"run Clip NonZero",
    ];
    for input in rows {
        check(&rt, input, "", Exit::BadInput(1));
    }
}

#[test]
fn bad_lines(rt: HostRuntime) {
    let rows: [&[u8]; 8] = [
        b"line 0",
        b"line 0 0 1",
        b"line 0 0 x 1",
        b"line 4611686018427387904 0 1 1",
        b"line 0 0 1 -4611686018427387904",
        b"line 0 0 +1 1",
        b"Line 0 0 1 1",
        b"lines 0 0 1 1",
    ];
    for input in rows {
        check(&rt, input, "", Exit::BadInput(1));
    }
    check(
        &rt,
        b"line 0 0 1 1\nline 0 0 1\nrun edges NonZero\n",
        "",
        Exit::BadInput(2),
    );
    check(&rt, b"run clip NonZero\nline\n", "", Exit::BadInput(2));
    check(&rt, b"line 0 0 1 1", "", Exit::BadInput(2));
}
