//! Rows of `run tiles`.

use crate::runs::check;
use polyover_engine::exit::Exit;
use std::fmt::Write as _;
use std::process::Abort;

const SQUARE: &str = "subject 0 0 4 0 4 4 0 4\n";

const UNCUT: &str = "shape\n4 0 4 4 0 4 0 0\n";

// Checks the answer of the engine for the lines, cut by the grid.
fn check_tiles(rt: &(impl Abort + Alloc), lines: &str, grid: &str, wanted: &str, exit: Exit) {
    let mut input = String::new(rt.alloc());
    let made = write!(input, "{lines}run tiles {grid}\n");
    assert!(rt; made.is_ok());
    check(rt, input.as_bytes(), wanted, exit);
}

#[test]
fn a_square(rt: HostRuntime) {
    let four =
        "shape\n2 0 2 2 0 2 0 0\nshape\n2 2 2 4 0 4 0 2\nshape\n4 0 4 2 2 2 2 0\nshape\n4 2 4 4 2 4 2 2\n";
    check_tiles(&rt, SQUARE, "NonZero 2 2", four, Exit::Answered);
    check_tiles(&rt, SQUARE, "EvenOdd 2 2", four, Exit::Answered);
    check_tiles(&rt, SQUARE, "Negative 2 2", "", Exit::Answered);
    check_tiles(&rt, SQUARE, "NonZero 4 4", UNCUT, Exit::Answered);
}

// Only the lines of the subject count.
#[test]
fn other_lines(rt: HostRuntime) {
    let others = "clip 1 1 3 1 3 3 1 3\nsubject 0 0 4 0 4 4 0 4\nline 1 -9 1 9\npoint 3 3\n";
    check_tiles(&rt, others, "NonZero 5 5", UNCUT, Exit::Answered);
    check_tiles(
        &rt,
        "clip 0 0 4 0 4 4 0 4\n",
        "NonZero 2 2",
        "",
        Exit::Answered,
    );
    check_tiles(&rt, "", "NonZero 1 1", "", Exit::Answered);
}

#[test]
fn a_bent_shape_and_a_triangle(rt: HostRuntime) {
    check_tiles(
        &rt,
        "subject 0 0 3 0 3 1 1 1 1 3 0 3\n",
        "NonZero 2 5",
        "shape\n2 0 2 1 1 1 1 3 0 3 0 0\nshape\n3 0 3 1 2 1 2 0\n",
        Exit::Answered,
    );
    // the crossings (1, 4/3) and (2, 2/3) are rounded
    check_tiles(
        &rt,
        "subject 0 0 3 0 0 2\n",
        "NonZero 1 9",
        "shape\n1 0 1 1 0 2 0 0\nshape\n2 0 2 1 1 1 1 0\nshape\n3 0 2 1 2 0\n",
        Exit::Answered,
    );
}

// At most 1,000 lines of a grid fit in each direction.
#[test]
fn a_thousand_lines(rt: HostRuntime) {
    check_tiles(
        &rt,
        "subject 0 0 1001 0\n",
        "NonZero 1 1",
        "",
        Exit::Answered,
    );
    check_tiles(
        &rt,
        "subject 0 0 1002 0\n",
        "NonZero 1 1",
        "",
        Exit::BadInput(2),
    );
    check_tiles(
        &rt,
        "subject 0 0 0 1002\n",
        "NonZero 9 1",
        "",
        Exit::BadInput(2),
    );
    check_tiles(
        &rt,
        "subject 0 0 1002 0 0 1\n",
        "NonZero 1 1",
        "",
        Exit::BadInput(2),
    );
}

#[test]
fn numbers_that_are_no_sides_of_cells(rt: HostRuntime) {
    let rows = [
        "NonZero 2 -1",
        "NonZero 0 1",
        "NonZero 1 0",
        "NonZero -0 1",
        "NonZero 4611686018427387904 1",
        "NonZero 1 -99999999999999999999999999999999999999999999",
        "NonZero 99999999999999999999999999999999999999999999 1",
    ];
    for grid in rows {
        check_tiles(&rt, SQUARE, grid, "", Exit::BadInput(2));
        check_tiles(&rt, "\n", grid, "", Exit::BadInput(2));
    }
    check_tiles(
        &rt,
        SQUARE,
        "NonZero 007 4611686018427387903",
        UNCUT,
        Exit::Answered,
    );
}

#[test]
fn bad_commands(rt: HostRuntime) {
    let rows: [&[u8]; 13] = [
        b"run tiles",
        b"run tiles 2 2",
        b"run tiles NonZero",
        b"run tiles NonZero 2",
        b"run tiles NonZero 2 2 2",
        b"run tiles Odd 2 2",
        b"run tiles NonZero 2 2 clockwise",
        b"run tiles NonZero +2 2",
        b"run tiles NonZero 2 -",
        b"run tiles NonZero 2 2x",
        b"run tiles NonZero 99999999999999999999x 2",
        b"run Tiles NonZero 2 2",
        b"run tile NonZero 2 2",
    ];
    for input in rows {
        check(&rt, input, "", Exit::BadInput(1));
    }
}

// A grid that does not fit counts only where no line is bad.
#[test]
fn a_grid_that_does_not_fit_beside_bad_lines(rt: HostRuntime) {
    let rows: [(&[u8], usize); 5] = [
        (b"run tiles NonZero 0 1\nline\n", 2),
        (b"run tiles NonZero 99999999999999999999 1\n\nline\n", 3),
        (b"run tiles NonZero 99999999999999999999x 1\n\nline\n", 1),
        (b"\nsubject 0\nrun tiles NonZero 0 1\n", 2),
        (b"\nsubject 0 0 4 0 4 4 0 4\n\nrun tiles NonZero 0 1\n\n", 4),
    ];
    for (input, line) in rows {
        check(&rt, input, "", Exit::BadInput(line));
    }
}
