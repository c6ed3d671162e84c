//! Closed walks cut into loops, on worked rows, at each coordinate type.

use crate::places::{Place, point_of};
use callers::closed_walks::loops_through;
use overlay_geom::error::OverlayError;
use overlay_geom::number::IntNumber;
use overlay_geom::point::IntPoint;
use overlay_walk::step::Step;
use std::alloc::Global;
use std::process::Abort;
use std::test::Fail;

// Points by their coordinates.
type Places<'a> = &'a [Place];

// The points with these coordinates.
fn points_of<I: IntNumber + From<i16>>(
    alloc: Global,
    places: Places<'_>,
) -> Result<Vec<IntPoint<I>, Global>, OverlayError> {
    let mut points = Vec::new(alloc);
    for place in places {
        points.push(point_of(*place))?;
    }
    Ok(points)
}

// Returns whether the steps begin in these points.
fn begin_in<I: IntNumber + PartialEq + From<i16>>(steps: &[Step<I>], points: Places<'_>) -> bool {
    if steps.len() != points.len() {
        return false;
    }
    for i in 0..steps.len() {
        if steps[i].from != point_of(points[i]) {
            return false;
        }
    }
    true
}

// Tests whether the closed walk through the points is cut into these loops.
fn is_cut_into<I: IntNumber + PartialEq + From<i16>>(
    alloc: Global,
    points: Places<'_>,
    wanted: &[Places<'_>],
) -> Result<bool, Fail> {
    let loops = loops_through(alloc, &points_of::<I>(alloc, points)?)?;
    if loops.len() != wanted.len() {
        return Ok(false);
    }
    for i in 0..loops.len() {
        if !begin_in(&loops[i], wanted[i]) {
            return Ok(false);
        }
    }
    Ok(true)
}

// A walk round two squares that touch in a point: the second is cut off, and the first is left.
fn touching<I: IntNumber + PartialEq + From<i16>>(alloc: Global) -> Result<bool, Fail> {
    is_cut_into::<I>(
        alloc,
        &[
            (0, 0),
            (1, 1),
            (2, 0),
            (3, 1),
            (4, 0),
            (3, -1),
            (2, 0),
            (1, -1),
        ],
        &[
            &[(3, 1), (4, 0), (3, -1), (2, 0)],
            &[(0, 0), (1, 1), (2, 0), (1, -1)],
        ],
    )
}

// Tests that walk with steps there and back at both ends: these are dropped, and the walk begins outside the first
// square.
fn with_steps_back<I: IntNumber + PartialEq + From<i16>>(alloc: Global) -> Result<bool, Fail> {
    is_cut_into::<I>(
        alloc,
        &[
            (-1, 0),
            (0, 0),
            (1, 1),
            (2, 0),
            (3, 1),
            (4, 0),
            (5, 0),
            (4, 0),
            (3, -1),
            (2, 0),
            (1, -1),
            (0, 0),
        ],
        &[
            &[(3, 1), (4, 0), (3, -1), (2, 0)],
            &[(1, 1), (2, 0), (1, -1), (0, 0)],
        ],
    )
}

// Fewer than three points make no loop.
fn few_points<I: IntNumber + PartialEq + From<i16>>(alloc: Global) -> Result<bool, Fail> {
    Ok(
        is_cut_into::<I>(alloc, &[], &[])?
            && is_cut_into::<I>(alloc, &[(0, 0)], &[])?
            && is_cut_into::<I>(alloc, &[(0, 0), (1, 1)], &[])?,
    )
}

// All of these, at a coordinate type.
fn rows<I: IntNumber + PartialEq + From<i16>>(rt: &impl Abort, alloc: Global) -> Result<(), Fail> {
    assert!(rt; touching::<I>(alloc)?);
    assert!(rt; with_steps_back::<I>(alloc)?);
    assert!(rt; few_points::<I>(alloc)?);
    Ok(())
}

#[test]
fn walks_cut_into_loops(rt: HostRuntime) -> Result<(), Fail> {
    rows::<i16>(&rt, rt.alloc())?;
    rows::<i32>(&rt, rt.alloc())?;
    rows::<i64>(&rt, rt.alloc())
}
