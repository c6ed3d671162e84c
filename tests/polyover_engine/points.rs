//! Rows of `run contains` and `run locate`.

use crate::runs::check;
use polyover_engine::exit::Exit;
use std::fmt::Write as _;
use std::process::Abort;

// Checks the output of the engine for the lines, followed by the command.
fn check_points(rt: &(impl Abort + Alloc), lines: &str, command: &str, wanted: &str) {
    let mut input = String::new(rt.alloc());
    let made = write!(input, "{lines}run {command}\n");
    assert!(rt; made.is_ok());
    check(rt, input.as_bytes(), wanted, Exit::Answered);
}

const STEPPED: &str = "subject 0 0 10 0 10 10 5 10 5 5 0 5\n";

const WITH_HOLE: &str = "subject 0 0 10 0 10 10 0 10\nsubject 3 7 7 7 7 3 3 3\n";

#[test]
fn points_in_a_contour(rt: HostRuntime) {
    check_points(
        &rt,
        "subject 0 0 10 0 10 10 5 10 5 5 0 5\npoint 5 2\npoint 4 7\npoint 6 7\npoint 5 12\n",
        "contains",
        "true\nfalse\ntrue\nfalse\n",
    );
}

#[test]
fn points_in_a_shape_with_a_hole(rt: HostRuntime) {
    let mut lines = String::new(rt.alloc());
    let made = write!(
        lines,
        "point 5 5\n{WITH_HOLE}point 1 1\npoint 2 5\npoint 5 5\npoint 20 20\n"
    );
    assert!(&rt; made.is_ok());
    check_points(&rt, &lines, "contains", "false\ntrue\ntrue\nfalse\nfalse\n");
    check_points(
        &rt,
        &lines,
        "locate",
        "outside\ninside\ninside\noutside\noutside\n",
    );
}

#[test]
fn a_contour_that_passes_a_corner_straight_and_touches_it(rt: HostRuntime) {
    check_points(
        &rt,
        "subject 0 0 4 0 8 0 8 4 4 0 0 4\npoint 1 1\npoint 7 1\npoint 4 2\npoint 7 4\n",
        "contains",
        "true\ntrue\nfalse\nfalse\n",
    );
}

#[test]
fn points_on_borders_and_corners(rt: HostRuntime) {
    let mut lines = String::new(rt.alloc());
    let made = write!(
        lines,
        "{STEPPED}point 5 7\npoint 5 5\npoint 3 5\npoint 10 10\npoint 5 2\npoint 4 7\npoint 10 11\n"
    );
    assert!(&rt; made.is_ok());
    check_points(
        &rt,
        &lines,
        "locate",
        "boundary\nboundary\nboundary\nboundary\ninside\noutside\noutside\n",
    );
    check_points(
        &rt,
        "subject 0 0 10 0 10 10 0 10\nsubject 3 7 7 7 7 3 3 3\npoint 3 5\npoint 5 5\npoint 1 1\n",
        "locate",
        "boundary\noutside\ninside\n",
    );
}

#[test]
fn few_points_and_contours(rt: HostRuntime) {
    for command in ["contains", "locate"] {
        check_points(&rt, "", command, "");
        check_points(&rt, STEPPED, command, "");
    }
    check_points(&rt, "point 1 1\n", "contains", "false\n");
    check_points(
        &rt,
        "subject 1 1\nsubject\npoint 2 2\npoint 1 1\n",
        "locate",
        "outside\noutside\n",
    );
}

// The clip is no part of the shape, and need not be resolved; and points change no other answer.
#[test]
fn lines_that_the_command_does_not_use(rt: HostRuntime) {
    check_points(
        &rt,
        "clip 0 0 10 10 10 0 0 10\nsubject 0 0 4 0 4 4 0 4\npoint 2 2\n",
        "contains",
        "true\n",
    );
    check_points(
        &rt,
        "point 9 9\nsubject 0 0 2 0 2 2 0 2\npoint 7 7\n",
        "overlay Subject NonZero",
        "shape\n0 2 0 0 2 0 2 2\n",
    );
}

#[test]
fn points_at_the_ends_of_the_coordinate_range(rt: HostRuntime) {
    check_points(
        &rt,
        "subject -4611686018427387903 -4611686018427387903 4611686018427387903 -4611686018427387903 \
         4611686018427387903 4611686018427387903 -4611686018427387903 4611686018427387903\n\
         point 4611686018427387903 0\npoint 0 0\npoint -4611686018427387903 4611686018427387903\n",
        "locate",
        "boundary\ninside\nboundary\n",
    );
}

#[test]
fn a_subject_that_is_not_resolved_is_a_bad_line(rt: HostRuntime) {
    let rows: [(&[u8], usize); 8] = [
        (b"subject 0 0 10 10 10 0 0 10\nrun contains\n", 1),
        (b"\nsubject 0 0 1 0\nrun locate\n", 2),
        (
            b"subject 0 0 1 0 1 1\nsubject 0 0 1 0\nsubject 0 0 10 10 10 0 0 10\nrun contains\n",
            2,
        ),
        // only where no other line is bad
        (b"subject 0 0 1 0\npoint 1\nrun contains\n", 2),
        (b"subject 0 0 1 0\nrun contains\nsubject\n", 3),
        (b"subject 0 0 1 0\n", 2),
        (b"subject 0 0 1 0\nrun contains NonZero\n", 2),
        (b"subject 0 0 1 0\nrun locate now\n", 2),
    ];
    for (input, line) in rows {
        check(&rt, input, "", Exit::BadInput(line));
    }
    check(
        &rt,
        b"subject 0 0 1 0\nrun overlay Subject NonZero\n",
        "",
        Exit::Answered,
    );
}

#[test]
fn bad_points(rt: HostRuntime) {
    let rows: [&[u8]; 5] = [
        b"point\nrun contains\n",
        b"point 1\nrun contains\n",
        b"point 1 2 3\nrun contains\n",
        b"point 1 4611686018427387904\nrun contains\n",
        b"Point 1 2\nrun contains\n",
    ];
    for input in rows {
        check(&rt, input, "", Exit::BadInput(1));
    }
}
