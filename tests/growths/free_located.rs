//! Free functions of `overlay_sectors` and `overlay_located`.

use crate::figures::{Width, point};
use crate::refusals::{Memory, Trial};
use overlay_geom::fill_rule::FillRule;
use overlay_geom::path::IntShape;
use overlay_geom::point::IntPoint;
use overlay_located::contours::locate_in_contours;
use overlay_located::located::locate_told;
use overlay_located::together::told_of;
use overlay_order::count::ShapeCountBoolean;
use overlay_order::edge::CountedEdge;
use overlay_relate::blocks::Block;
use overlay_relate::location::PointLocation;
use overlay_sectors::blocks::{BlockedEdges, blocks_over};
use overlay_sectors::located::locate;
use std::alloc::AllocError;
use std::process::Abort;
use std::test::Fail;

// Number of squares. They have sides of 2, and stand in a row, one for each 4 units of x.
const SQUARES: i16 = 10;

type Edges<'m, I> = Vec<CountedEdge<I, ShapeCountBoolean>, Memory<'m>>;

// The edges of the squares, counterclockwise.
fn edges_of<I: Width>(memory: Memory<'_>) -> Result<Edges<'_, I>, AllocError> {
    let mut edges = Vec::new(memory);
    for square in 0..SQUARES {
        let (left, right) = (4 * square, 4 * square + 2);
        for (ends, subj) in [
            ([left, 0, left, 2], -1),
            ([left, 0, right, 0], 1),
            ([left, 2, right, 2], -1),
            ([right, 0, right, 2], 1),
        ] {
            edges.push(CountedEdge {
                a: point(ends[0], ends[1]),
                b: point(ends[2], ends[3]),
                count: ShapeCountBoolean { subj, clip: 0 },
            })?;
        }
    }
    Ok(edges)
}

// A point in the middle of each square, and one behind it.
fn points_of<I: Width>(memory: Memory<'_>) -> Result<Vec<IntPoint<I>, Memory<'_>>, AllocError> {
    let mut points = Vec::new(memory);
    for square in 0..SQUARES {
        points.push(point(4 * square + 1, 1))?;
        points.push(point(4 * square + 3, 1))?;
    }
    Ok(points)
}

// Where the point at a place of these lies.
fn expected_at(place: usize) -> PointLocation {
    if place % 2 == 0 {
        PointLocation::Inside
    } else {
        PointLocation::Outside
    }
}

fn check_told<I: Width>(trial: &Trial<'_, impl Abort>) -> Result<(), Fail> {
    let memory = trial.memory;
    let edges = edges_of::<I>(memory)?;
    let points = points_of::<I>(memory)?;
    let told = trial.refuse_call(
        "overlay_located::told_of",
        || told_of(memory, &edges, &points),
    )?;
    let blocks: [Block<I>; 0] = [];
    let shape = BlockedEdges {
        edges: &edges,
        blocks: &blocks,
        groups: &blocks,
    };
    for (place, p) in points.iter().enumerate() {
        let location = locate_told(&shape, FillRule::NonZero, &told, place, *p);
        assert!(trial.rt; location == expected_at(place));
    }
    Ok(())
}

fn check_blocks<I: Width>(trial: &Trial<'_, impl Abort>) -> Result<(), Fail> {
    let memory = trial.memory;
    let edges = edges_of::<I>(memory)?;
    let blocks = trial.refuse_call(
        "overlay_sectors::blocks_over",
        || blocks_over(memory, &edges, 4),
    )?;
    let shape = BlockedEdges {
        edges: &edges,
        blocks: &blocks,
        groups: &blocks,
    };
    for (place, p) in points_of::<I>(memory)?.iter().enumerate() {
        let location = locate(&shape, FillRule::NonZero, *p);
        assert!(trial.rt; location == expected_at(place));
    }
    Ok(())
}

// The squares as contours, counterclockwise.
fn squares<I: Width>(memory: Memory<'_>) -> Result<IntShape<I, Memory<'_>>, AllocError> {
    let mut shape = Vec::new(memory);
    for square in 0..SQUARES {
        let (left, right) = (4 * square, 4 * square + 2);
        let corners = [[left, 0], [right, 0], [right, 2], [left, 2]];
        shape.push(Vec::from_array(memory, corners.map(|at| point(at[0], at[1])))?)?;
    }
    Ok(shape)
}

fn check_contours<I: Width>(trial: &Trial<'_, impl Abort>) -> Result<(), Fail> {
    let memory = trial.memory;
    let shape = squares::<I>(memory)?;
    let points = points_of::<I>(memory)?;
    let found = trial.refuse_call(
        "overlay_located::locate_in_contours",
        || locate_in_contours(memory, &shape, &points),
    )?;
    for (place, location) in found.iter().enumerate() {
        assert!(trial.rt; *location == expected_at(place));
    }
    Ok(())
}

#[test]
fn edges_in_blocks(rt: HostRuntime) -> Result<(), Fail> {
    at_a_width!(rt, check_blocks)
}

#[test]
fn points_in_contours(rt: HostRuntime) -> Result<(), Fail> {
    at_a_width!(rt, check_contours)
}

#[test]
fn points_told_together(rt: HostRuntime) -> Result<(), Fail> {
    at_a_width!(rt, check_told)
}
