//! Extractions and slices with live edges in a scan that the test hands in.

use overlay_extract::assemble::assembled;
use overlay_extract::binding::bind::bind_contours;
use overlay_extract::binding::places::shape_places;
use overlay_extract::slicing::direction::bring_in_direction;
use overlay_extract::slicing::loops::filled_loops;
use overlay_extract::slicing::roles::contours_of_loops;
use overlay_extract::slicing::slices::SliceContours;
use overlay_geom::number::IntNumber;
use overlay_geom::options::{ContourDirection, IntOverlayOptions};
use overlay_geom::overlay_rule::OverlayRule;
use overlay_geom::path::IntShapes;
use overlay_graph::graph::Graph;
use overlay_order::count::{EdgeCount, ShapeCountBoolean};
use overlay_scan::scan::Scan;
use overlay_walk::area::large_walks;
use overlay_walk::buffer::BooleanExtractionBuffer;
use overlay_walk::kept_contours::kept_contours;
use std::alloc::{AllocError, Global};

/// Returns the shapes that `extract_shapes` is to give.
pub(crate) fn shapes_by<I: IntNumber, S: Scan<I, usize>>(
    graph: &Graph<I, ShapeCountBoolean, Global>,
    overlay_rule: OverlayRule,
    options: IntOverlayOptions<I::WideUInt>,
    buffer: &mut BooleanExtractionBuffer<I, Global>,
    scan: &mut S,
) -> Result<IntShapes<I, Global>, AllocError> {
    let alloc = *graph.allocator();
    let contours = kept_contours(graph, overlay_rule, options, buffer)?;
    let found = bind_contours(alloc, scan, &contours, options.output_direction)?;
    let places = shape_places(alloc, &contours, &found)?;
    let keeps_points = options.preserve_output_collinear;
    assembled(alloc, &contours, &places, keeps_points)
}

/// Returns the contours that `slice_contours` is to give.
pub(crate) fn slice_contours_by<I: IntNumber, C: EdgeCount, S: Scan<I, usize>>(
    graph: &Graph<I, C, Global>,
    min_output_area: I::WideUInt,
    scan: &mut S,
) -> Result<SliceContours<I, Global>, AllocError> {
    let alloc = *graph.allocator();
    let large = large_walks(alloc, filled_loops(graph)?, min_output_area)?;
    let contours = contours_of_loops(alloc, large)?;
    let direction = ContourDirection::CounterClockwise;
    let shapes = bind_contours(alloc, scan, &contours, direction)?;
    Ok(SliceContours { contours, shapes })
}

/// Returns the shapes that `sliced_shapes` is to give.
pub(crate) fn sliced_shapes_by<I: IntNumber, C: EdgeCount, S: Scan<I, usize>>(
    graph: &Graph<I, C, Global>,
    direction: ContourDirection,
    min_output_area: I::WideUInt,
    scan: &mut S,
) -> Result<IntShapes<I, Global>, AllocError> {
    let alloc = *graph.allocator();
    let slices = slice_contours_by(graph, min_output_area, scan)?;
    let places = shape_places(alloc, &slices.contours, &slices.shapes)?;
    let mut shapes = assembled(alloc, &slices.contours, &places, true)?;
    bring_in_direction(&mut shapes, direction);
    Ok(shapes)
}
