//! Rows of `run relate`.

use crate::runs::check;
use overlay_geom::error::OverlayError;
use polyover_engine::exit::Exit;
use std::fmt::Write as _;
use std::process::Abort;

const NAMES: [&str; 7] = [
    "intersects",
    "interiors_intersect",
    "touches",
    "point_intersects",
    "within",
    "disjoint",
    "covers",
];

// The seven lines of these answers, T for true and F for false.
fn check_relations(rt: &(impl Abort + Alloc), lines: &str, fill: &str, answers: &[u8; 7]) {
    let mut input = String::new(rt.alloc());
    let made = write!(input, "{lines}run relate {fill}\n");
    assert!(rt; made.is_ok());
    let mut wanted = String::new(rt.alloc());
    for (name, answer) in NAMES.iter().zip(answers) {
        let holds = *answer == b'T';
        let added = writeln!(wanted, "{name} {holds}");
        assert!(rt; added.is_ok());
    }
    check(rt, input.as_bytes(), &wanted, Exit::Answered);
}

const FILLS: [&str; 3] = ["EvenOdd", "NonZero", "Positive"];

#[test]
fn a_square_and_another_one(rt: HostRuntime) {
    let rows: [(&str, &[u8; 7]); 4] = [
        // in a corner, along a border, the same, apart
        ("2 2 4 2 4 4 2 4", b"TFTTFFF"),
        ("2 0 4 0 4 2 2 2", b"TFTFFFF"),
        ("0 0 2 0 2 2 0 2", b"TTFFTFT"),
        ("9 9 10 9 10 10 9 10", b"FFFFFTF"),
    ];
    for (clip, answers) in rows {
        let mut lines = String::new(rt.alloc());
        let made = write!(lines, "subject 0 0 2 0 2 2 0 2\nclip {clip}\n");
        assert!(&rt; made.is_ok());
        for fill in FILLS {
            check_relations(&rt, &lines, fill, answers);
        }
        // clockwise contours alone are filled, and there is none
        check_relations(&rt, &lines, "Negative", b"FFFFFTF");
    }
}

#[test]
fn one_square_in_another(rt: HostRuntime) {
    for fill in FILLS {
        check_relations(
            &rt,
            "subject 1 1 3 1 3 3 1 3\nclip 0 0 4 0 4 4 0 4\n",
            fill,
            b"TTFFTFF",
        );
        check_relations(
            &rt,
            "subject 0 0 4 0 4 4 0 4\nclip 1 1 3 1 3 3 1 3\n",
            fill,
            b"TTFFFFT",
        );
        check_relations(
            &rt,
            "clip 0 0 4 0 4 4 0 4\nsubject 1 1 3 1 3 3 1 3\n",
            fill,
            b"TTFFTFF",
        );
    }
}

#[test]
fn squares_that_overlap(rt: HostRuntime) {
    check_relations(
        &rt,
        "subject 0 0 4 0 4 4 0 4\nclip 2 2 6 2 6 6 2 6\n",
        "EvenOdd",
        b"TTFFFFF",
    );
}

// A contour given twice fills nothing under EvenOdd; a clockwise one nothing under Positive, nor a
// counterclockwise one under Negative.
#[test]
fn the_fill_rule_tells_what_is_filled(rt: HostRuntime) {
    let twice = "subject 1 1 3 1 3 3 1 3\nsubject 1 1 3 1 3 3 1 3\nclip 0 0 4 0 4 4 0 4\n";
    check_relations(&rt, twice, "EvenOdd", b"FFFFFTF");
    check_relations(&rt, twice, "NonZero", b"TTFFTFF");
    let clockwise = "subject 1 1 1 3 3 3 3 1\nclip 0 0 4 0 4 4 0 4\n";
    check_relations(&rt, clockwise, "NonZero", b"TTFFTFF");
    check_relations(&rt, clockwise, "Positive", b"FFFFFTF");
    check_relations(&rt, clockwise, "Negative", b"FFFFFTF");
    let both_clockwise = "subject 1 1 1 3 3 3 3 1\nclip 0 0 0 4 4 4 4 0\n";
    check_relations(&rt, both_clockwise, "Negative", b"TTFFTFF");
}

// A subject in the hole of the clip, which it fills whole, or not.
#[test]
fn a_subject_in_a_hole(rt: HostRuntime) {
    let clip = "clip 0 0 6 0 6 6 0 6\nclip 1 1 1 5 5 5 5 1\n";
    let mut lines = String::new(rt.alloc());
    let made = write!(lines, "{clip}subject 2 2 4 2 4 4 2 4\n");
    assert!(&rt; made.is_ok());
    check_relations(&rt, &lines, "EvenOdd", b"FFFFFTF");
    let mut filling = String::new(rt.alloc());
    let made = write!(filling, "{clip}subject 1 1 5 1 5 5 1 5\n");
    assert!(&rt; made.is_ok());
    check_relations(&rt, &filling, "EvenOdd", b"TFTFFFF");
}

#[test]
fn no_edges_and_empty_shapes(rt: HostRuntime) {
    for fill in FILLS {
        check_relations(&rt, "", fill, b"FFFFFTF");
        check_relations(&rt, "subject\nclip 1 1\n", fill, b"FFFFFTF");
        // an empty subject is within nothing, nor does an empty clip lie within anything
        check_relations(&rt, "clip 0 0 4 0 4 4 0 4\n", fill, b"FFFFFTF");
        check_relations(&rt, "subject 0 0 4 0 4 4 0 4\n", fill, b"FFFFFTF");
    }
}

// Points are read, and change nothing.
#[test]
fn points_are_not_used(rt: HostRuntime) {
    check_relations(
        &rt,
        "point 9 9\nsubject 0 0 2 0 2 2 0 2\nclip 2 2 4 2 4 4 2 4\npoint 1 1\n",
        "EvenOdd",
        b"TFTTFFF",
    );
}

// The two need not be resolved.
#[test]
fn contours_that_cross_themselves(rt: HostRuntime) {
    check_relations(
        &rt,
        "subject 0 0 10 10 10 0 0 10\nclip 4 0 6 0 5 5\n",
        "EvenOdd",
        b"TFTTFFF",
    );
}

#[test]
fn shapes_at_the_ends_of_the_coordinate_range(rt: HostRuntime) {
    check_relations(
        &rt,
        "subject -4611686018427387903 -4611686018427387903 4611686018427387903 -4611686018427387903 \
         4611686018427387903 4611686018427387903 -4611686018427387903 4611686018427387903\n\
         clip 0 0 4611686018427387903 0 4611686018427387903 1\n",
        "NonZero",
        b"TTFFFFT",
    );
}

#[test]
fn splitting_that_does_not_settle(rt: HostRuntime) {
    check(
        &rt,
        b"subject 2 0 0 66 2 -66\nsubject 1 0 0 67 -1 0\nrun relate NonZero\n",
        "",
        Exit::Refused(OverlayError::NotSettled),
    );
}

#[test]
fn bad_commands(rt: HostRuntime) {
    let rows: [&[u8]; 8] = [
        b"run relate",
        b"run relate Odd",
        b"run relate evenodd",
        b"run relate EvenOdd keep",
        b"run relate EvenOdd EvenOdd",
        b"run relate Union EvenOdd",
        b"run relate EvenOdd 5",
        b"run Relate EvenOdd",
    ];
    for input in rows {
        check(&rt, input, "", Exit::BadInput(1));
    }
    check(
        &rt,
        b"subject 0 0 1\nrun relate EvenOdd\n",
        "",
        Exit::BadInput(1),
    );
    check(&rt, b"run relate EvenOdd\nclip\n", "", Exit::BadInput(2));
}
