//! Shapes sliced along strings, on worked rows, at each coordinate type.

use crate::by_scan::sliced_shapes_by;
use overlay_extract::slicing::sliced_shapes::sliced_shapes;
use overlay_geom::number::{IntNumber, UIntNumber};
use overlay_geom::options::ContourDirection;
use overlay_scan::list::ScanList;
use overlay_scan::tree::ScanTree;
use small_points::contours::{Points, shapes_of};
use small_points::slice_graphs::{INNER, OUTER_AND_INNER, SQUARE, graph_of};
use std::alloc::Global;
use std::process::Abort;
use std::test::Fail;

// The line through the middle of the square.
const MIDDLE: Points<'static> = &[(-20, 0), (20, 0)];

// Its halves, counterclockwise.
const LOWER: Points<'static> = &[(10, -10), (10, 0), (-10, 0), (-10, -10)];

const UPPER: Points<'static> = &[(10, 0), (10, 10), (-10, 10), (-10, 0)];

// The shapes into which the contours are sliced, as they are to be, also with trees alone and with lists alone.
fn check<I: IntNumber + PartialEq + From<i16>>(
    rt: &impl Abort,
    alloc: Global,
    contours: &[Points<'_>],
    strings: &[Points<'_>],
    wanted: &[&[Points<'_>]],
) -> Result<(), Fail> {
    let graph = graph_of::<I>(rt, alloc, contours, strings)?;
    let all = I::WideUInt::zero();
    let direction = ContourDirection::CounterClockwise;
    let wanted = shapes_of::<I>(alloc, wanted)?;
    assert!(rt; sliced_shapes(&graph, direction, all)? == wanted);
    let by_trees = sliced_shapes_by(&graph, direction, all, &mut ScanTree::default(alloc))?;
    let by_lists = sliced_shapes_by(&graph, direction, all, &mut ScanList::default(alloc))?;
    assert!(rt; by_trees == wanted && by_lists == wanted);
    Ok(())
}

// A line through a square cuts it in two; a line that ends inside cuts nothing, and its point on the side stays.
fn lines<I: IntNumber + PartialEq + From<i16>>(rt: &impl Abort, alloc: Global) -> Result<(), Fail> {
    check::<I>(rt, alloc, &[SQUARE], &[MIDDLE], &[&[LOWER], &[UPPER]])?;
    check::<I>(
        rt,
        alloc,
        &[&[(0, 0), (4, 0), (4, 4), (0, 4)]],
        &[&[(-1, 2), (2, 2)]],
        &[&[&[(4, 0), (4, 4), (0, 4), (0, 2), (0, 0)]]],
    )
}

// A closed string cuts an island out, round which a hole is left.
fn hole<I: IntNumber + PartialEq + From<i16>>(rt: &impl Abort, alloc: Global) -> Result<(), Fail> {
    check::<I>(rt, alloc, &[SQUARE], &[INNER], OUTER_AND_INNER)
}

// Without a shape there are no slices.
fn nothing<I: IntNumber + PartialEq + From<i16>>(
    rt: &impl Abort,
    alloc: Global,
) -> Result<(), Fail> {
    check::<I>(rt, alloc, &[], &[MIDDLE], &[])?;
    check::<I>(rt, alloc, &[], &[], &[])
}

// The halves in the opposite direction: each contour has its points in the opposite order.
fn clockwise<I: IntNumber + PartialEq + From<i16>>(
    rt: &impl Abort,
    alloc: Global,
) -> Result<(), Fail> {
    let graph = graph_of::<I>(rt, alloc, &[SQUARE], &[MIDDLE])?;
    let all = I::WideUInt::zero();
    let shapes = sliced_shapes(&graph, ContourDirection::Clockwise, all)?;
    let lower: Points<'static> = &[(-10, -10), (-10, 0), (10, 0), (10, -10)];
    let upper: Points<'static> = &[(-10, 0), (-10, 10), (10, 10), (10, 0)];
    assert!(rt; shapes == shapes_of::<I>(alloc, &[&[lower], &[upper]])?);
    Ok(())
}

// All of these, at a coordinate type.
fn rows<I: IntNumber + PartialEq + From<i16>>(rt: &impl Abort, alloc: Global) -> Result<(), Fail> {
    lines::<I>(rt, alloc)?;
    hole::<I>(rt, alloc)?;
    nothing::<I>(rt, alloc)?;
    clockwise::<I>(rt, alloc)
}

#[test]
fn worked_slices(rt: HostRuntime) -> Result<(), Fail> {
    rows::<i16>(&rt, rt.alloc())?;
    rows::<i32>(&rt, rt.alloc())?;
    rows::<i64>(&rt, rt.alloc())
}
