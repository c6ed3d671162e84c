//! Rows of `run overlay`.

use crate::runs::check;
use overlay_geom::error::OverlayError;
use polyover_engine::exit::Exit;
use std::fmt::Write as _;
use std::process::Abort;

// Checks the output of the engine for an overlay of the contours.
fn check_overlay(rt: &(impl Abort + Alloc), contours: &str, command: &str, wanted: &str) {
    let mut input = String::new(rt.alloc());
    let made = write!(input, "{contours}run overlay {command}\n");
    assert!(rt; made.is_ok());
    check(rt, input.as_bytes(), wanted, Exit::Answered);
}

#[test]
fn overlay_with_holes(rt: HostRuntime) {
    check_overlay(
        &rt,
        "subject 1 0 4 0 4 5 1 5\nsubject 2 1 2 4 3 4 3 1\nclip 0 2 5 2 5 3 0 3\n",
        "Union EvenOdd",
        "shape\n0 3 0 2 1 2 1 0 4 0 4 2 5 2 5 3 4 3 4 5 1 5 1 3\n2 1 2 2 3 2 3 1\n2 3 2 4 3 4 3 3\n",
    );
}

#[test]
fn overlay_with_holes_clockwise(rt: HostRuntime) {
    check_overlay(
        &rt,
        "subject 1 0 4 0 4 5 1 5\nsubject 2 1 2 4 3 4 3 1\nclip 0 2 5 2 5 3 0 3\n",
        "Union EvenOdd clockwise",
        "shape\n0 2 0 3 1 3 1 5 4 5 4 3 5 3 5 2 4 2 4 0 1 0 1 2\n2 2 2 1 3 1 3 2\n2 4 2 3 3 3 3 4\n",
    );
}

#[test]
fn overlay_with_a_hole_in_each_shape(rt: HostRuntime) {
    let squares =
        "subject 0 0 6 0 6 6 0 6\nsubject 2 2 4 2 4 4 2 4\nsubject 10 0 16 0 16 6 10 6\nsubject 12 2 14 2 14 4 12 4\n";
    check_overlay(
        &rt,
        squares,
        "Subject EvenOdd",
        "shape\n0 6 0 0 6 0 6 6\n2 2 2 4 4 4 4 2\nshape\n10 6 10 0 16 0 16 6\n12 2 12 4 14 4 14 2\n",
    );
    check_overlay(
        &rt,
        squares,
        "Subject EvenOdd clockwise",
        "shape\n0 0 0 6 6 6 6 0\n2 4 2 2 4 2 4 4\nshape\n10 0 10 6 16 6 16 0\n12 4 12 2 14 2 14 4\n",
    );
}

#[test]
fn overlay_with_a_hole_that_touches_its_outline(rt: HostRuntime) {
    let notched = "subject 0 0 6 0 6 6 0 6\nsubject 0 3 2 4 2 2\n";
    check_overlay(
        &rt,
        notched,
        "Subject EvenOdd",
        "shape\n0 3 0 0 6 0 6 6 0 6 0 3 2 4 2 2\n",
    );
    check_overlay(
        &rt,
        notched,
        "Subject EvenOdd clockwise",
        "shape\n0 0 0 3 2 2 2 4 0 3 0 6 6 6 6 0\n",
    );
}

const TWO_SQUARES: &str = "subject 0 0 4 0 4 4 0 4\nclip 2 2 6 2 6 6 2 6\n";

#[test]
fn overlay_of_two_squares(rt: HostRuntime) {
    check_overlay(
        &rt,
        TWO_SQUARES,
        "Intersect EvenOdd",
        "shape\n2 4 2 2 4 2 4 4\n",
    );
}

#[test]
fn overlay_without_shapes(rt: HostRuntime) {
    check_overlay(&rt, "", "Union NonZero", "");
    check_overlay(&rt, TWO_SQUARES, "Intersect Negative", "");
    let twice = "subject 0 0 2 0 2 2 0 2\nsubject 0 0 2 0 2 2 0 2\n";
    check_overlay(&rt, twice, "Subject EvenOdd", "");
    check_overlay(&rt, twice, "Subject NonZero", "shape\n0 2 0 0 2 0 2 2\n");
    let commands = [
        "Subject EvenOdd",
        "Subject NonZero",
        "Subject Positive",
        "Subject Negative",
    ];
    for command in commands {
        check_overlay(&rt, "subject\nsubject 1 1\nsubject 0 0 3 3\n", command, "");
    }
}

#[test]
fn overlay_clockwise(rt: HostRuntime) {
    check_overlay(
        &rt,
        TWO_SQUARES,
        "Intersect EvenOdd clockwise",
        "shape\n2 2 2 4 4 4 4 2\n",
    );
}

#[test]
fn overlay_of_a_contour_that_crosses_itself(rt: HostRuntime) {
    let rows = [
        (
            "Subject NonZero",
            "shape\n0 10 0 0 5 5\nshape\n10 10 5 5 10 0\n",
        ),
        ("Subject Positive", "shape\n0 10 0 0 5 5\n"),
        ("Subject Negative", "shape\n10 10 5 5 10 0\n"),
    ];
    for (command, wanted) in rows {
        check_overlay(&rt, "subject 0 0 10 10 10 0 0 10\n", command, wanted);
    }
}

#[test]
fn overlay_with_a_rounded_crossing(rt: HostRuntime) {
    check_overlay(
        &rt,
        "subject 0 0 10 4 10 0 0 3\n",
        "Subject NonZero",
        "shape\n0 3 0 0 4 2\nshape\n10 4 4 2 10 0\n",
    );
}

const SIDE_BY_SIDE: &str = "subject 0 0 2 0 2 2 0 2\nsubject 2 0 4 0 4 2 2 2\n";

#[test]
fn overlay_of_squares_side_by_side(rt: HostRuntime) {
    check_overlay(
        &rt,
        SIDE_BY_SIDE,
        "Subject NonZero",
        "shape\n0 2 0 0 4 0 4 2\n",
    );
}

#[test]
fn overlay_that_keeps_points_on_one_line(rt: HostRuntime) {
    check_overlay(
        &rt,
        SIDE_BY_SIDE,
        "Subject NonZero keep",
        "shape\n0 2 0 0 2 0 4 0 4 2 2 2\n",
    );
}

#[test]
fn options_stand_in_any_order(rt: HostRuntime) {
    let wanted = "shape\n0 0 0 2 2 2 4 2 4 0 2 0\n";
    check_overlay(&rt, SIDE_BY_SIDE, "Subject NonZero clockwise keep", wanted);
    check_overlay(&rt, SIDE_BY_SIDE, "Subject NonZero keep clockwise", wanted);
}

// A square of area 4.
const SMALL_SQUARE: &str = "subject 0 0 2 0 2 2 0 2\n";

// A square of area 36 with a square hole of area 4.
const FRAME: &str = "subject 0 0 6 0 6 6 0 6\nsubject 2 2 2 4 4 4 4 2\n";

#[test]
fn contours_below_the_minimum_area_are_left_out(rt: HostRuntime) {
    let square = "shape\n2 4 2 2 4 2 4 4\n";
    check_overlay(&rt, TWO_SQUARES, "Intersect EvenOdd min 4", square);
    check_overlay(&rt, TWO_SQUARES, "Intersect EvenOdd min 5", "");
    let small = "shape\n0 2 0 0 2 0 2 2\n";
    check_overlay(&rt, SMALL_SQUARE, "Subject NonZero min 4", small);
    check_overlay(&rt, SMALL_SQUARE, "Subject NonZero min 5", "");
    let outline = "shape\n0 6 0 0 6 0 6 6\n";
    let both = "shape\n0 6 0 0 6 0 6 6\n2 2 2 4 4 4 4 2\n";
    let rows = [
        ("Subject EvenOdd", both),
        ("Subject EvenOdd min 0", both),
        ("Subject EvenOdd min -0", both),
        ("Subject EvenOdd min 4", both),
        ("Subject EvenOdd min 5", outline),
        ("Subject EvenOdd min 36", outline),
        ("Subject EvenOdd min 37", ""),
        (
            "Subject EvenOdd min 170141183460469231731687303715884105727",
            "",
        ),
    ];
    for (command, wanted) in rows {
        check_overlay(&rt, FRAME, command, wanted);
    }
}

#[test]
fn a_minimum_area_stands_at_any_place_among_options(rt: HostRuntime) {
    let both = "shape\n0 0 0 6 6 6 6 0\n2 4 2 2 4 2 4 4\n";
    let outline = "shape\n0 0 0 6 6 6 6 0\n";
    let rows = [
        ("Subject EvenOdd min 4 keep clockwise", both),
        ("Subject EvenOdd clockwise min 007 keep", outline),
        ("Subject EvenOdd keep clockwise min 5", outline),
    ];
    for (command, wanted) in rows {
        check_overlay(&rt, FRAME, command, wanted);
    }
}

// A hole that touches its outline; two holes that touch in a corner; an island that touches the hole round it.
const NOTCH: &str = "subject 0 0 6 0 6 6 0 6\nsubject 0 3 2 4 2 2\n";

const CORNERS: &str =
    "subject 0 0 10 0 10 10 0 10\nsubject 2 2 2 4 4 4 4 2\nsubject 4 4 4 6 6 6 6 4\n";

const ISLAND: &str = "subject 0 0 10 0 10 10 0 10\nsubject 2 2 2 8 8 8 8 2\nsubject 2 5 4 4 4 6\n";

#[test]
fn contours_that_visit_no_point_twice(rt: HostRuntime) {
    let corners = "shape\n0 10 0 0 10 0 10 10\n2 2 2 4 4 4 4 2\n4 4 4 6 6 6 6 4\n";
    let turned_corners = "shape\n0 0 0 10 10 10 10 0\n2 4 2 2 4 2 4 4\n4 6 4 4 6 4 6 6\n";
    let rows = [
        (
            NOTCH,
            "Subject EvenOdd ogc",
            "shape\n0 0 6 0 6 6 0 6\n0 3 2 4 2 2\n",
        ),
        (
            NOTCH,
            "Subject EvenOdd min 0 ogc clockwise",
            "shape\n0 0 0 6 6 6 6 0\n2 4 0 3 2 2\n",
        ),
        (CORNERS, "Subject EvenOdd", corners),
        (CORNERS, "Subject EvenOdd ogc", corners),
        (CORNERS, "Subject EvenOdd clockwise", turned_corners),
        (CORNERS, "Subject EvenOdd ogc clockwise", turned_corners),
        (
            ISLAND,
            "Subject EvenOdd",
            "shape\n0 10 0 0 10 0 10 10\n2 2 2 5 4 4 4 6 2 5 2 8 8 8 8 2\n",
        ),
        (
            ISLAND,
            "Subject EvenOdd clockwise",
            "shape\n0 0 0 10 10 10 10 0\n2 5 2 2 8 2 8 8 2 8 2 5 4 6 4 4\n",
        ),
        (
            ISLAND,
            "Subject EvenOdd ogc",
            "shape\n0 10 0 0 10 0 10 10\n2 2 2 8 8 8 8 2\nshape\n4 6 2 5 4 4\n",
        ),
        (
            ISLAND,
            "Subject EvenOdd clockwise ogc",
            "shape\n0 0 0 10 10 10 10 0\n2 2 8 2 8 8 2 8\nshape\n2 5 4 6 4 4\n",
        ),
    ];
    for (figures, command, wanted) in rows {
        check_overlay(&rt, figures, command, wanted);
    }
}

// Two bars: the second covers the right half of the first and as much beside it.
const BARS: &str = "subject 0 0 4 0 4 1 0 1\nclip 2 0 6 0 6 1 2 1\n";

#[test]
fn points_on_one_line_with_their_neighbours(rt: HostRuntime) {
    let rows = [
        ("Union NonZero", "shape\n0 1 0 0 6 0 6 1\n"),
        (
            "Union NonZero keep",
            "shape\n0 1 0 0 2 0 4 0 6 0 6 1 4 1 2 1\n",
        ),
        (
            "Union NonZero keep clockwise",
            "shape\n0 0 0 1 2 1 4 1 6 1 6 0 4 0 2 0\n",
        ),
        ("Union NonZero clockwise", "shape\n0 0 0 1 6 1 6 0\n"),
    ];
    for (command, wanted) in rows {
        check_overlay(&rt, BARS, command, wanted);
    }
}

#[test]
fn overlay_of_each_rule(rt: HostRuntime) {
    let rows = [
        ("Subject EvenOdd", "shape\n0 1 0 0 4 0 4 1\n"),
        ("Clip EvenOdd", "shape\n2 1 2 0 6 0 6 1\n"),
        ("Intersect EvenOdd", "shape\n2 1 2 0 4 0 4 1\n"),
        ("Union EvenOdd", "shape\n0 1 0 0 6 0 6 1\n"),
        ("Difference EvenOdd", "shape\n0 1 0 0 2 0 2 1\n"),
        ("InverseDifference EvenOdd", "shape\n4 1 4 0 6 0 6 1\n"),
        (
            "Xor EvenOdd",
            "shape\n0 1 0 0 2 0 2 1\nshape\n4 1 4 0 6 0 6 1\n",
        ),
    ];
    for (command, wanted) in rows {
        check_overlay(&rt, BARS, command, wanted);
    }
}

#[test]
fn overlay_of_triangles_with_a_hole(rt: HostRuntime) {
    check_overlay(
        &rt,
        "subject 0 0 9 0 0 9\nsubject 1 3 3 1 1 1\nsubject -7 5 -5 5 -7 6\n",
        "Subject EvenOdd",
        "shape\n-7 6 -7 5 -5 5\nshape\n0 9 0 0 9 0\n1 1 1 3 3 1\n",
    );
}

#[test]
fn overlay_at_the_ends_of_the_coordinate_range(rt: HostRuntime) {
    check_overlay(
        &rt,
        "subject -4611686018427387903 -4611686018427387903 4611686018427387903 -4611686018427387903 \
         4611686018427387903 4611686018427387903 -4611686018427387903 4611686018427387903\n",
        "Subject NonZero",
        "shape\n-4611686018427387903 4611686018427387903 -4611686018427387903 -4611686018427387903 \
         4611686018427387903 -4611686018427387903 4611686018427387903 4611686018427387903\n",
    );
}

#[test]
fn overlay_whose_splitting_does_not_settle_is_refused(rt: HostRuntime) {
    check_overlay(
        &rt,
        "subject 2 0 0 64 2 -64\nsubject 1 0 0 65 -1 0\n",
        "Clip NonZero",
        "",
    );
    check(
        &rt,
        b"subject 2 0 0 66 2 -66\nsubject 1 0 0 67 -1 0\nrun overlay Clip NonZero\n",
        "",
        Exit::Refused(OverlayError::NotSettled),
    );
}
