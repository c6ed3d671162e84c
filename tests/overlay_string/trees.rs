//! The worked slices again, of a graph, with trees for any number of shapes, and with none at first. Clips need none.

use crate::points::{SQUARE, are_shapes};
use overlay_extract::assemble::assembled;
use overlay_extract::binding::bind::bind_from;
use overlay_extract::binding::places::shape_places;
use overlay_extract::slicing::loops::filled_loops;
use overlay_extract::slicing::roles::contours_of_loops;
use overlay_geom::error::OverlayError;
use overlay_geom::integer::OverlayInt;
use overlay_geom::number::{IntNumber, UIntNumber};
use overlay_geom::options::ContourDirection;
use overlay_geom::path::IntShapes;
use overlay_graph::graph::Graph;
use overlay_order::count::EdgeCount;
use overlay_walk::area::large_walks;
use small_points::contours::Points;
use small_points::slice_graphs::{INNER, OUTER_AND_INNER, SQUARE as WIDE, graph_of};
use std::alloc::Global;
use std::process::Abort;
use std::test::Fail;

// The line through the middle of the wide square, and its halves.
const MIDDLE: Points<'static> = &[(-20, 0), (20, 0)];

const HALVES: &[&[Points<'static>]] = &[
    &[&[(10, -10), (10, 0), (-10, 0), (-10, -10)]],
    &[&[(10, 0), (10, 10), (-10, 10), (-10, 0)]],
];

// A line that ends inside a square, and the square with the point on its side.
const ENDING: Points<'static> = &[(-1, 2), (2, 2)];

const UNCUT: &[&[Points<'static>]] = &[&[&[(4, 0), (4, 4), (0, 4), (0, 2), (0, 0)]]];

// The slices of the graph, counterclockwise, with a tree from a number of shapes on.
fn sliced_from<I: IntNumber, C: EdgeCount>(
    graph: &Graph<I, C, Global>,
    tree_from: usize,
) -> Result<IntShapes<I, Global>, OverlayError> {
    let alloc = *graph.allocator();
    let loops = large_walks(alloc, filled_loops(graph)?, I::WideUInt::zero())?;
    let contours = contours_of_loops(alloc, loops)?;
    let direction = ContourDirection::CounterClockwise;
    let found = bind_from(alloc, &contours, direction, tree_from)?;
    let places = shape_places(alloc, &contours, &found)?;
    Ok(assembled(alloc, &contours, &places, true)?)
}

fn rows<I: OverlayInt + PartialEq + From<i16>>(
    rt: &impl Abort,
    alloc: Global,
    tree_from: usize,
) -> Result<(), Fail> {
    let graph = graph_of::<I>(rt, alloc, &[WIDE], &[MIDDLE])?;
    assert!(rt; are_shapes(alloc, &sliced_from(&graph, tree_from)?, HALVES)?);
    let graph = graph_of::<I>(rt, alloc, &[SQUARE], &[ENDING])?;
    assert!(rt; are_shapes(alloc, &sliced_from(&graph, tree_from)?, UNCUT)?);
    let graph = graph_of::<I>(rt, alloc, &[WIDE], &[INNER])?;
    assert!(rt; are_shapes(alloc, &sliced_from(&graph, tree_from)?, OUTER_AND_INNER)?);
    Ok(())
}

#[test]
fn slices_with_a_limit_of_zero(rt: HostRuntime) -> Result<(), Fail> {
    rows::<i16>(&rt, rt.alloc(), 0)?;
    rows::<i32>(&rt, rt.alloc(), 0)?;
    rows::<i64>(&rt, rt.alloc(), 0)
}

#[test]
fn slices_with_lists_at_first(rt: HostRuntime) -> Result<(), Fail> {
    rows::<i16>(&rt, rt.alloc(), usize::MAX)?;
    rows::<i32>(&rt, rt.alloc(), usize::MAX)?;
    rows::<i64>(&rt, rt.alloc(), usize::MAX)
}
