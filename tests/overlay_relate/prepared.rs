//! Prepared shapes: where points lie in holes, in contours that cross, on corners and edges, and past the range.

use crate::asked::points;
use overlay_builder::solver::Solver;
use overlay_geom::fill_rule::FillRule;
use overlay_geom::integer::OverlayInt;
use overlay_geom::path::IntShape;
use overlay_geom::point::{IntPoint, in_range};
use overlay_relate::location::PointLocation;
use overlay_relate::location::PointLocation::{Boundary, Inside, Outside};
use overlay_relate::prepared::PreparedShape;
use overlay_relate::prepared::parts::locate_in;
use std::alloc::Global;
use std::process::Abort;
use std::test::Fail;

// Points, by where they lie.
#[derive(Clone, Copy)]
struct Lying<'a> {
    inside: &'a [[i16; 2]],
    boundary: &'a [[i16; 2]],
    outside: &'a [[i16; 2]],
}

// The contours with these points.
fn contours<I: OverlayInt + From<i16>>(
    alloc: Global,
    all: &[&[[i16; 2]]],
) -> Result<IntShape<I, Global>, Fail> {
    let mut shape = Vec::new(alloc);
    for contour in all {
        shape.push(points::<I>(alloc, contour)?)?;
    }
    Ok(shape)
}

// Asks the shape of contours in range about each point, by either solver.
fn ask<I: OverlayInt + From<i16>>(
    rt: &impl Abort,
    alloc: Global,
    all: &[&[[i16; 2]]],
    fill_rule: FillRule,
    wanted: &Lying<'_>,
) -> Result<(), Fail> {
    let shape = contours::<I>(alloc, all)?;
    for contour in &shape {
        assert!(rt; in_range(contour));
    }
    for solver in [Solver::ABSOLUTE, Solver::SNAPPED] {
        let prepared = PreparedShape::new(alloc, &shape, fill_rule, solver)?;
        assert!(rt; lie_there(&prepared, wanted.inside, Inside));
        assert!(rt; lie_there(&prepared, wanted.boundary, Boundary));
        assert!(rt; lie_there(&prepared, wanted.outside, Outside));
    }
    Ok(())
}

// Tests whether all of the points lie there.
fn lie_there<I: OverlayInt + From<i16>>(
    prepared: &PreparedShape<I, Global>,
    points: &[[i16; 2]],
    wanted: PointLocation,
) -> bool {
    for at in points {
        if prepared.locate(IntPoint::new(I::from(at[0]), I::from(at[1]))) != wanted {
            return false;
        }
    }
    true
}

// Asks so by each of these fill rules, at each coordinate type.
fn ask_each(
    rt: &impl Abort,
    alloc: Global,
    all: &[&[[i16; 2]]],
    by_rule: &[(FillRule, Lying<'_>)],
) -> Result<(), Fail> {
    for (fill_rule, wanted) in by_rule {
        ask::<i16>(rt, alloc, all, *fill_rule, wanted)?;
        ask::<i32>(rt, alloc, all, *fill_rule, wanted)?;
        ask::<i64>(rt, alloc, all, *fill_rule, wanted)?;
    }
    Ok(())
}

const OUTER: [[i16; 2]; 4] = [[0, 0], [10, 0], [10, 10], [0, 10]];

const HOLE: [[i16; 2]; 4] = [[3, 3], [3, 6], [6, 6], [6, 3]];

#[test]
fn a_hole(rt: HostRuntime) -> Result<(), Fail> {
    let wanted = Lying {
        inside: &[[1, 1], [6, 2], [6, 7]],
        boundary: &[
            [3, 4],
            [4, 3],
            [4, 6],
            [6, 6],
            [0, 0],
            [10, 0],
            [10, 10],
            [10, 5],
        ],
        outside: &[
            [4, 4],
            [-1, 5],
            [11, 5],
            [5, 11],
            [5, -1],
            [10, 11],
            [0, 11],
            [0, -1],
        ],
    };
    let by_rule = [
        (FillRule::EvenOdd, wanted),
        (FillRule::NonZero, wanted),
        (FillRule::Positive, wanted),
    ];
    ask_each(&rt, rt.alloc(), &[&OUTER, &HOLE], &by_rule)
}

// It winds once round its left half, and once the other way round its right half.
const CROSSED: [[i16; 2]; 4] = [[0, 0], [4, 4], [4, 0], [0, 4]];

#[test]
fn a_contour_that_crosses_itself(rt: HostRuntime) -> Result<(), Fail> {
    let both = Lying {
        inside: &[[1, 2], [3, 2]],
        boundary: &[[2, 2], [0, 2], [4, 2], [3, 3]],
        outside: &[[2, 1], [2, 3]],
    };
    let left = Lying {
        inside: &[[1, 2]],
        boundary: &[[2, 2], [0, 2], [1, 1]],
        outside: &[[3, 2], [4, 2], [3, 3], [4, 4]],
    };
    let right = Lying {
        inside: &[[3, 2]],
        boundary: &[[2, 2], [4, 2], [3, 3]],
        outside: &[[1, 2], [0, 2], [1, 1], [0, 0]],
    };
    let by_rule = [
        (FillRule::EvenOdd, both),
        (FillRule::NonZero, both),
        (FillRule::Positive, left),
        (FillRule::Negative, right),
    ];
    ask_each(&rt, rt.alloc(), &[&CROSSED], &by_rule)
}

const LARGE: [[i16; 2]; 4] = [[0, 0], [4, 0], [4, 4], [0, 4]];

const BESIDE: [[i16; 2]; 4] = [[2, 1], [6, 1], [6, 3], [2, 3]];

// Two contours overlap: of their edges in the overlap both sides are filled by NonZero, and one by EvenOdd.
#[test]
fn edges_with_both_sides_filled(rt: HostRuntime) -> Result<(), Fail> {
    let filled = Lying {
        inside: &[[2, 2], [2, 1], [3, 1], [4, 2], [3, 2], [5, 2]],
        boundary: &[[4, 1], [4, 3], [5, 1], [2, 0]],
        outside: &[[5, 4]],
    };
    let by_turns = Lying {
        inside: &[[1, 2], [5, 2]],
        boundary: &[[2, 2], [2, 1], [3, 1], [4, 2], [4, 1]],
        outside: &[[3, 2]],
    };
    let by_rule = [(FillRule::NonZero, filled), (FillRule::EvenOdd, by_turns)];
    ask_each(&rt, rt.alloc(), &[&LARGE, &BESIDE], &by_rule)
}

// Of no edge is a side filled, or there is no edge.
#[test]
fn nothing_filled(rt: HostRuntime) -> Result<(), Fail> {
    let all_outside = Lying {
        inside: &[],
        boundary: &[],
        outside: &[[0, 0], [2, 2], [2, 0]],
    };
    let alloc = rt.alloc();
    let negative = [(FillRule::Negative, all_outside)];
    let non_zero = [(FillRule::NonZero, all_outside)];
    ask_each(&rt, alloc, &[&LARGE], &negative)?;
    ask_each(&rt, alloc, &[], &non_zero)?;
    ask_each(&rt, alloc, &[&[[0, 0], [4, 0]]], &non_zero)
}

// A triangle over half the range, whose long edge passes through (0, 0), by the greatest coordinate.
fn at_the_ends<I: OverlayInt + From<i16>>(
    rt: &impl Abort,
    alloc: Global,
    low: I,
    high: I,
    past: [I; 2],
    least: I,
    greatest: I,
) -> Result<(), Fail> {
    let corners = [
        IntPoint::new(low, low),
        IntPoint::new(high, low),
        IntPoint::new(high, high),
    ];
    assert!(rt; in_range(&corners));
    let mut shape: IntShape<I, Global> = Vec::new(alloc);
    shape.push(Vec::from_array(alloc, corners)?)?;
    let prepared = PreparedShape::new(alloc, &shape, FillRule::NonZero, Solver::ABSOLUTE)?;
    let [zero, one, less] = [I::from(0), I::from(1), I::from(-1)];
    let rows = [
        (low, low, Boundary),
        (high, high, Boundary),
        (zero, zero, Boundary),
        (one, zero, Inside),
        (less, zero, Outside),
        (zero, low, Boundary),
        (high, one, Boundary),
        (zero, past[0], Outside),
        (zero, past[1], Outside),
        (past[0], low, Outside),
        (past[1], one, Outside),
        (high, past[1], Outside),
        (greatest, greatest, Outside),
        (least, least, Outside),
        (one, greatest, Outside),
        (one, least, Outside),
        (greatest, zero, Outside),
        (least, zero, Outside),
    ];
    for (x, y, wanted) in rows {
        assert!(rt; prepared.locate(IntPoint::new(x, y)) == wanted);
    }
    Ok(())
}

#[test]
fn ends_of_the_range(rt: HostRuntime) -> Result<(), Fail> {
    let alloc = rt.alloc();
    let past: [i16; 2] = [-16384, 16384];
    at_the_ends::<i16>(&rt, alloc, -16383, 16383, past, i16::MIN, i16::MAX)?;
    let past: [i32; 2] = [-1073741824, 1073741824];
    let high = 1073741823;
    at_the_ends::<i32>(&rt, alloc, -high, high, past, i32::MIN, i32::MAX)?;
    let past: [i64; 2] = [-4611686018427387904, 4611686018427387904];
    let high = 4611686018427387903;
    at_the_ends::<i64>(&rt, alloc, -high, high, past, i64::MIN, i64::MAX)
}

// Squares in a row, 1500 of them, in range: their edges are in many blocks and in two groups.
fn squares_in_a_row(rt: &impl Abort, alloc: Global) -> Result<IntShape<i32, Global>, Fail> {
    let mut shape = Vec::new(alloc);
    for n in 0..1500 {
        let x = 4 * n;
        let square = [[x, 0], [x + 2, 0], [x + 2, 2], [x, 2]];
        shape.push(Vec::from_array(alloc, square.map(|at| IntPoint::new(at[0], at[1])))?)?;
    }
    for contour in &shape {
        assert!(rt; in_range(contour));
    }
    Ok(shape)
}

#[test]
fn many_squares_in_a_row(rt: HostRuntime) -> Result<(), Fail> {
    let alloc = rt.alloc();
    let shape = squares_in_a_row(&rt, alloc)?;
    let prepared = PreparedShape::new(alloc, &shape, FillRule::EvenOdd, Solver::ABSOLUTE)?;
    for n in 0..1500 {
        let x = 4 * n;
        assert!(&rt; prepared.locate(IntPoint::new(x + 1, 1)) == Inside);
        assert!(&rt; prepared.locate(IntPoint::new(x + 3, 1)) == Outside);
        assert!(&rt; prepared.locate(IntPoint::new(x, 1)) == Boundary);
        assert!(&rt; prepared.locate(IntPoint::new(x + 2, 2)) == Boundary);
        assert!(&rt; prepared.locate(IntPoint::new(x + 1, 3)) == Outside);
    }
    Ok(())
}

// The parts of a shape are asked as the shape is: squares in a row, and a shape without edges.
#[test]
fn parts(rt: HostRuntime) -> Result<(), Fail> {
    let alloc = rt.alloc();
    let none: IntShape<i32, Global> = Vec::new(alloc);
    let bare = PreparedShape::new(alloc, &none, FillRule::EvenOdd, Solver::SNAPPED)?.into_parts();
    assert!(&rt; bare.edges.is_empty() && bare.blocks.is_empty() && bare.groups.is_empty());
    let origin = IntPoint::new(0, 0);
    assert!(&rt; locate_in(&bare.edges, &bare.blocks, &bare.groups, origin) == Outside);
    let shape = squares_in_a_row(&rt, alloc)?;
    let held = PreparedShape::new(alloc, &shape, FillRule::EvenOdd, Solver::SNAPPED)?.into_parts();
    assert!(&rt; held.edges.len() == 6000 && held.blocks.len() == 94 && held.groups.len() == 2);
    for n in 0..1500 {
        for (x, y, wanted) in [
            (1, 1, Inside),
            (3, 1, Outside),
            (2, 1, Boundary),
            (0, 2, Boundary),
            (1, 3, Outside),
        ] {
            let point = IntPoint::new(4 * n + x, y);
            assert!(&rt; locate_in(&held.edges, &held.blocks, &held.groups, point) == wanted);
        }
    }
    Ok(())
}
