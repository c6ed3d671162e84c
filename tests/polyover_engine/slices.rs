//! Rows of `run slice`.

use crate::runs::check;
use overlay_geom::error::OverlayError;
use polyover_engine::exit::Exit;
use std::fmt::Write as _;
use std::process::Abort;

const SMALL: &str = "subject 0 0 4 0 4 4 0 4\n";

const UNCUT: &str = "shape\n4 0 4 4 0 4 0 0\n";

const WIDE: &str = "subject -10 -10 -10 10 10 10 10 -10\n";

const HALVES: &str = "shape\n10 -10 10 0 -10 0 -10 -10\nshape\n10 0 10 10 -10 10 -10 0\n";

// A rectangle with two holes side by side.
const TWO_HOLES: &str =
    "subject 0 0 35 0 35 20 0 20\nsubject 5 5 5 15 15 15 15 5\nsubject 20 5 20 15 30 15 30 5\n";

// Checks the output of the engine for the contours, sliced along the lines.
fn check_slices(rt: &(impl Abort + Alloc), contours: &str, lines: &str, fill: &str, wanted: &str) {
    let mut input = String::new(rt.alloc());
    let made = write!(input, "{contours}{lines}run slice {fill}\n");
    assert!(rt; made.is_ok());
    check(rt, input.as_bytes(), wanted, Exit::Answered);
}

// It cuts nothing, but its node stays.
#[test]
fn a_line_that_ends_inside(rt: HostRuntime) {
    let with_node = "shape\n4 0 4 4 0 4 0 2 0 0\n";
    check_slices(&rt, SMALL, "line -1 2 2 2\n", "NonZero", with_node);
}

#[test]
fn a_line_through_a_square(rt: HostRuntime) {
    let rows = [
        ("line -20 0 20 0\n", "NonZero", HALVES),
        ("line 20 0 -20 0\n", "NonZero", HALVES),
        ("line 20 0 -20 0\nline -20 0 20 0\n", "NonZero", HALVES),
        ("line -20 0 20 0\n", "EvenOdd", HALVES),
        // the square is clockwise
        ("line -20 0 20 0\n", "Negative", HALVES),
        ("line -20 0 20 0\n", "Positive", ""),
    ];
    for (lines, fill, wanted) in rows {
        check_slices(&rt, WIDE, lines, fill, wanted);
    }
}

#[test]
fn lines_that_cross(rt: HostRuntime) {
    check_slices(
        &rt,
        SMALL,
        "line 2 -1 2 5\nline -1 2 5 2\n",
        "NonZero",
        "shape\n2 0 2 2 0 2 0 0\nshape\n2 2 2 4 0 4 0 2\nshape\n4 0 4 2 2 2 2 0\nshape\n4 2 4 4 2 4 2 2\n",
    );
}

// An open path is not closed, so only a path that comes back to its start cuts a part out.
#[test]
fn a_path_inside(rt: HostRuntime) {
    let whole = "shape\n10 -10 10 10 -10 10 -10 -10\n";
    let open = "line -5 -5 -5 5 5 5 5 -5\n";
    check_slices(&rt, WIDE, open, "NonZero", whole);
    check_slices(
        &rt,
        WIDE,
        "line -5 -5 -5 5 5 5 5 -5 -5 -5\n",
        "NonZero",
        "shape\n10 -10 10 10 -10 10 -10 -10\n-5 -5 -5 5 5 5 5 -5\nshape\n5 -5 5 5 -5 5 -5 -5\n",
    );
}

#[test]
fn shapes_with_corners(rt: HostRuntime) {
    let square = "subject -2 -2 2 -2 2 2 -2 2\n";
    let whole = "shape\n2 -2 2 2 -2 2 -2 -2\n";
    let rows = [
        (
            square,
            "line -5 5 5 -5\n",
            "shape\n2 -2 -2 2 -2 -2\nshape\n-2 2 2 -2 2 2\n",
        ),
        (square, "line -5 5 5 5\n", whole),
        (square, "line -2 5 -2 -5\n", whole),
        (
            "subject -2 0 2 0 0 2\n",
            "line -5 2 5 2\n",
            "shape\n2 0 0 2 -2 0\n",
        ),
    ];
    for (contours, lines, wanted) in rows {
        check_slices(&rt, contours, lines, "NonZero", wanted);
    }
}

// A line between two holes cuts nothing; two cut out what lies between them.
#[test]
fn lines_between_holes(rt: HostRuntime) {
    check_slices(
        &rt,
        TWO_HOLES,
        "line 15 10 20 10\n",
        "NonZero",
        "shape\n35 0 35 20 0 20 0 0\n20 15 30 15 30 5 20 5 20 10\n5 5 5 15 15 15 15 10 15 5\n",
    );
    check_slices(
        &rt,
        TWO_HOLES,
        "line 15 5 20 5\nline 15 15 20 15\n",
        "NonZero",
        "shape\n35 0 35 20 0 20 0 0\n5 5 5 15 15 15 20 15 30 15 30 5 20 5 15 5\n\
         shape\n20 5 20 15 15 15 15 5\n",
    );
}

// An edge that the shape fills on both sides cuts as a line does.
#[test]
fn contours_in_one_another(rt: HostRuntime) {
    let both = "subject 0 0 4 0 4 4 0 4\nsubject 1 1 3 1 3 3 1 3\n";
    let ring = "shape\n4 0 4 4 0 4 0 0\n1 1 1 3 3 3 3 1\n";
    check_slices(&rt, both, "", "EvenOdd", ring);
    let parted = "shape\n4 0 4 4 0 4 0 0\n1 1 1 3 3 3 3 1\nshape\n3 1 3 3 1 3 1 1\n";
    check_slices(&rt, both, "", "NonZero", parted);
    let twice = "subject 0 0 9 0 9 9 0 9\nsubject 0 0 9 0 9 9 0 9\n";
    check_slices(&rt, twice, "line -1 4 10 4\n", "EvenOdd", "");
    let halves = "shape\n9 0 9 4 0 4 0 0\nshape\n9 4 9 9 0 9 0 4\n";
    check_slices(&rt, twice, "line -1 4 10 4\n", "NonZero", halves);
}

// Without a shape there is nothing to slice, and without a line of two points nothing along which.
#[test]
fn few_points(rt: HostRuntime) {
    check_slices(&rt, "", "line 0 0 10 0\n", "NonZero", "");
    check_slices(
        &rt,
        "subject\nsubject 1 1\n",
        "line 0 0 10 0\n",
        "NonZero",
        "",
    );
    check_slices(&rt, "", "", "NonZero", "");
    check_slices(&rt, SMALL, "", "NonZero", UNCUT);
    check_slices(
        &rt,
        SMALL,
        "line\nline 2 2\nline 1 1 1 1\n",
        "NonZero",
        UNCUT,
    );
}

// The clip and the points are read, and change nothing; nor does the order of the lines.
#[test]
fn what_is_not_used(rt: HostRuntime) {
    let others = "clip -2 -20 2 -20 2 20 -2 20\npoint 0 0\nline -20 0 20 0\n";
    check_slices(&rt, others, WIDE, "NonZero", HALVES);
}

#[test]
fn a_square_of_the_whole_coordinate_range(rt: HostRuntime) {
    check_slices(
        &rt,
        "subject -4611686018427387903 -4611686018427387903 4611686018427387903 -4611686018427387903 \
         4611686018427387903 4611686018427387903 -4611686018427387903 4611686018427387903\n",
        "line -4611686018427387903 0 4611686018427387903 0\n",
        "NonZero",
        "shape\n4611686018427387903 -4611686018427387903 4611686018427387903 0 -4611686018427387903 0 \
         -4611686018427387903 -4611686018427387903\n\
         shape\n4611686018427387903 0 4611686018427387903 4611686018427387903 \
         -4611686018427387903 4611686018427387903 -4611686018427387903 0\n",
    );
}

#[test]
fn splitting_that_does_not_settle(rt: HostRuntime) {
    check(
        &rt,
        b"subject 2 0 0 66 2 -66\nsubject 1 0 0 67 -1 0\nrun slice NonZero\n",
        "",
        Exit::Refused(OverlayError::NotSettled),
    );
}

#[test]
fn bad_commands(rt: HostRuntime) {
    let rows: [&[u8]; 11] = [
        b"run slice",
        b"run slice Odd",
        b"run slice nonzero",
        b"run slice NonZero NonZero",
        b"run slice Union NonZero",
        b"run slice NonZero clockwise",
        b"run slice NonZero keep",
        b"run slice NonZero min 4",
        b"run slice NonZero invert",
        b"run Slice NonZero",
        b"run slices NonZero",
    ];
    for input in rows {
        check(&rt, input, "", Exit::BadInput(1));
    }
    check(&rt, b"run slice NonZero\nline\n", "", Exit::BadInput(2));
    check(
        &rt,
        b"subject 0 0 4 0 4 4\nline 0 0 1\nrun slice NonZero\n",
        "",
        Exit::BadInput(2),
    );
}

// Contours that begin in one point: two shapes that touch there; two parts on both sides of a path from there, the part
// above first; a shape and its holes; and these with another shape found between them.
#[test]
fn contours_from_one_point(rt: HostRuntime) {
    let ring = "subject 0 0 12 -6 12 6\nsubject 0 0 8 1 8 3\nsubject 0 0 5 -2 5 -1\n";
    let with_another =
        "subject 0 0 12 -6 12 6\nsubject 0 0 8 1 8 3\nsubject 0 0 5 -2 5 -1\nsubject 0 0 6 -9 6 -8\n";
    let rows = [
        (
            "subject 0 0 9 1 9 4\nsubject 0 0 6 -4 6 -1\n",
            "",
            "shape\n0 0 6 -4 6 -1\nshape\n0 0 9 1 9 4\n",
        ),
        (
            "subject 0 0 6 -6 6 6\n",
            "line 0 0 2 1 6 0\n",
            "shape\n0 0 2 1 6 0 6 6\nshape\n6 -6 6 0 2 1 0 0\n",
        ),
        (
            ring,
            "",
            "shape\n0 0 12 -6 12 6\n5 -1 5 -2 0 0\n8 3 8 1 0 0\n",
        ),
        (
            with_another,
            "",
            "shape\n0 0 6 -9 6 -8\nshape\n0 0 12 -6 12 6\n5 -1 5 -2 0 0\n8 3 8 1 0 0\n",
        ),
    ];
    for (contours, lines, wanted) in rows {
        check_slices(&rt, contours, lines, "EvenOdd", wanted);
    }
}
