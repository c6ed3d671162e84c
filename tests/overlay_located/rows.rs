//! Rows by hand: contours that cross at thirds, overlapping edges, corners, spikes, and no contours.

use crate::asked::{Lying, ask_each};
use overlay_geom::fill_rule::FillRule;
use std::test::Fail;

// It crosses itself in (8/3, 4/3): it winds once round its left part, and once the other way round its right part.
const BOW: [[i16; 2]; 4] = [[0, 0], [8, 4], [8, 0], [0, 2]];

// An arrangement has a node at (3, 1), which lies below the crossing.
#[test]
fn a_crossing_at_thirds(rt: HostRuntime) -> Result<(), Fail> {
    let both = Lying {
        inside: &[[1, 1], [5, 1], [5, 2], [7, 1]],
        boundary: &[
            [0, 0],
            [0, 1],
            [0, 2],
            [2, 1],
            [4, 1],
            [4, 2],
            [6, 3],
            [8, 4],
            [8, 2],
            [8, 0],
        ],
        outside: &[
            [3, 1],
            [3, 2],
            [2, 2],
            [1, 0],
            [1, 2],
            [9, 2],
            [-1, 1],
            [8, 5],
            [8, -1],
        ],
    };
    let left = Lying {
        inside: &[[1, 1]],
        boundary: &[[0, 0], [0, 1], [0, 2], [2, 1]],
        outside: &[
            [5, 1],
            [4, 1],
            [4, 2],
            [6, 3],
            [8, 2],
            [8, 4],
            [8, 0],
            [3, 1],
        ],
    };
    let right = Lying {
        inside: &[[5, 1], [5, 2], [7, 1]],
        boundary: &[[4, 1], [4, 2], [6, 3], [8, 4], [8, 2], [8, 0]],
        outside: &[[1, 1], [0, 0], [0, 1], [0, 2], [2, 1], [3, 1]],
    };
    let by_rule = [
        (FillRule::EvenOdd, both),
        (FillRule::NonZero, both),
        (FillRule::Positive, left),
        (FillRule::Negative, right),
    ];
    ask_each(&rt, rt.alloc(), &[&BOW], &by_rule)
}

const SQUARE: [[i16; 2]; 4] = [[0, 0], [4, 0], [4, 4], [0, 4]];

const OVERLAPPING: [[i16; 2]; 4] = [[2, 1], [6, 1], [6, 3], [2, 3]];

// Of the edges in the overlap NonZero fills both sides, and EvenOdd one.
#[test]
fn edges_with_both_sides_filled(rt: HostRuntime) -> Result<(), Fail> {
    let filled = Lying {
        inside: &[[2, 2], [2, 1], [3, 1], [4, 2], [3, 2], [5, 2]],
        boundary: &[[4, 1], [4, 3], [5, 1], [2, 0]],
        outside: &[[5, 4]],
    };
    let by_turns = Lying {
        inside: &[[1, 2], [5, 2]],
        boundary: &[[2, 2], [2, 1], [3, 1], [4, 2], [4, 1]],
        outside: &[[3, 2]],
    };
    let by_rule = [
        (FillRule::NonZero, filled),
        (FillRule::Positive, filled),
        (FillRule::EvenOdd, by_turns),
    ];
    ask_each(&rt, rt.alloc(), &[&SQUARE, &OVERLAPPING], &by_rule)
}

const BESIDE: [[i16; 2]; 4] = [[4, 0], [8, 0], [8, 4], [4, 4]];

const BESIDE_BACK: [[i16; 2]; 4] = [[4, 0], [4, 4], [8, 4], [8, 0]];

// Two squares share an edge. Where they run alike its directions are opposite.
#[test]
fn a_shared_edge(rt: HostRuntime) -> Result<(), Fail> {
    let alloc = rt.alloc();
    let one_shape = Lying {
        inside: &[[4, 2], [4, 1], [3, 2], [5, 2]],
        boundary: &[[4, 0], [4, 4], [0, 2], [8, 2], [2, 0]],
        outside: &[[4, 5], [4, -1], [9, 2]],
    };
    let left = Lying {
        inside: &[[3, 2]],
        boundary: &[[4, 2], [4, 0], [4, 4], [0, 2]],
        outside: &[[5, 2], [8, 2], [8, 0], [6, 0]],
    };
    let right = Lying {
        inside: &[[5, 2]],
        boundary: &[[4, 2], [4, 0], [4, 4], [8, 2]],
        outside: &[[3, 2], [0, 2], [0, 0], [2, 0]],
    };
    let alike = [
        (FillRule::EvenOdd, one_shape),
        (FillRule::NonZero, one_shape),
        (FillRule::Positive, one_shape),
    ];
    let opposite = [
        (FillRule::EvenOdd, one_shape),
        (FillRule::NonZero, one_shape),
        (FillRule::Positive, left),
        (FillRule::Negative, right),
    ];
    ask_each(&rt, alloc, &[&SQUARE, &BESIDE], &alike)?;
    ask_each(&rt, alloc, &[&SQUARE, &BESIDE_BACK], &opposite)
}

const SQUARE_BACK: [[i16; 2]; 4] = [[0, 0], [0, 4], [4, 4], [4, 0]];

const NOWHERE: Lying<'static> = Lying {
    inside: &[],
    boundary: &[],
    outside: &[[0, 0], [2, 2], [2, 0], [0, 2], [4, 4], [5, 5]],
};

// A contour twice, and with its reverse.
#[test]
fn equal_contours(rt: HostRuntime) -> Result<(), Fail> {
    let alloc = rt.alloc();
    let square = Lying {
        inside: &[[2, 2]],
        boundary: &[[0, 0], [2, 0], [0, 2], [4, 4]],
        outside: &[[5, 5], [2, 5]],
    };
    let twice = [
        (FillRule::EvenOdd, NOWHERE),
        (FillRule::NonZero, square),
        (FillRule::Negative, NOWHERE),
    ];
    let turned = [
        (FillRule::EvenOdd, NOWHERE),
        (FillRule::NonZero, NOWHERE),
        (FillRule::Positive, NOWHERE),
        (FillRule::Negative, NOWHERE),
    ];
    ask_each(&rt, alloc, &[&SQUARE, &SQUARE], &twice)?;
    ask_each(&rt, alloc, &[&SQUARE, &SQUARE_BACK], &turned)
}

// A spike leads out of the square, and another into it.
#[test]
fn spikes(rt: HostRuntime) -> Result<(), Fail> {
    let spiked = [
        [0, 0],
        [4, 0],
        [4, 4],
        [3, 4],
        [3, 2],
        [3, 4],
        [1, 4],
        [1, 6],
        [1, 4],
        [0, 4],
    ];
    let wanted = Lying {
        inside: &[[3, 3], [3, 2], [2, 2]],
        boundary: &[[3, 4], [1, 4], [0, 4], [2, 4]],
        outside: &[[1, 5], [1, 6]],
    };
    let by_rule = [
        (FillRule::EvenOdd, wanted),
        (FillRule::NonZero, wanted),
        (FillRule::Positive, wanted),
        (FillRule::Negative, NOWHERE),
    ];
    ask_each(&rt, rt.alloc(), &[&spiked], &by_rule)
}

const UPPER: [[i16; 2]; 3] = [[0, 0], [2, 2], [-2, 2]];

const RIGHT: [[i16; 2]; 3] = [[0, 0], [2, -2], [2, 2]];

const LEFT: [[i16; 2]; 3] = [[0, 0], [-2, 2], [-2, -2]];

const LOWER: [[i16; 2]; 3] = [[0, 0], [-2, -2], [2, -2]];

// Triangles round (0, 0): all four fill what is near it, and fewer do not.
#[test]
fn sectors(rt: HostRuntime) -> Result<(), Fail> {
    let alloc = rt.alloc();
    let all = Lying {
        inside: &[[0, 0], [1, 1], [-1, 1], [1, -1], [-1, -1], [0, 1], [0, -1]],
        boundary: &[[2, 2], [2, 0], [-2, 0]],
        outside: &[[3, 0]],
    };
    let three = Lying {
        inside: &[[1, 1], [-1, 1], [0, 1], [1, 0], [-1, 0]],
        boundary: &[[0, 0], [1, -1], [-1, -1], [2, 2], [2, -2]],
        outside: &[[0, -1], [0, -2]],
    };
    let upright = Lying {
        inside: &[[0, 1], [0, -1]],
        boundary: &[[0, 0], [1, 1], [-1, -1], [0, 2]],
        outside: &[[1, 0], [-1, 0], [3, 3]],
    };
    let apart = Lying {
        inside: &[[1, 0], [-1, 0]],
        boundary: &[[0, 0], [1, 1], [-1, -1], [2, 0]],
        outside: &[[0, 1], [0, -1]],
    };
    let rules = [FillRule::EvenOdd, FillRule::NonZero, FillRule::Positive];
    for rule in rules {
        ask_each(&rt, alloc, &[&UPPER, &RIGHT, &LEFT, &LOWER], &[(rule, all)])?;
        ask_each(&rt, alloc, &[&UPPER, &RIGHT, &LEFT], &[(rule, three)])?;
        ask_each(&rt, alloc, &[&UPPER, &LOWER], &[(rule, upright)])?;
        ask_each(&rt, alloc, &[&RIGHT, &LEFT], &[(rule, apart)])?;
    }
    Ok(())
}

// No contour, and contours without edges.
#[test]
fn no_edges(rt: HostRuntime) -> Result<(), Fail> {
    let alloc = rt.alloc();
    let by_rule = [
        (FillRule::EvenOdd, NOWHERE),
        (FillRule::NonZero, NOWHERE),
        (FillRule::Positive, NOWHERE),
        (FillRule::Negative, NOWHERE),
    ];
    ask_each(&rt, alloc, &[], &by_rule)?;
    ask_each(&rt, alloc, &[&[], &[[2, 2]]], &by_rule)?;
    ask_each(&rt, alloc, &[&[[0, 0], [4, 0]]], &by_rule)
}
