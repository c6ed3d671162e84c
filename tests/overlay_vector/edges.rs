//! Edges from small coordinates, and the test of their range.

use overlay_geom::error::OverlayError;
use overlay_geom::integer::OverlayInt;
use overlay_geom::path::IntLine;
use overlay_geom::point::IntPoint;
use overlay_order::data::OverlayEdgeData;
use overlay_order::vector::{DataVectorEdge, SideFill};
use overlay_vector::edge_overlay::{EdgeOverlay, ShapeType};
use overlay_vector::input_edge::InputEdge;
use std::alloc::{Allocator, Global};
use std::process::Abort;

/// A point by its coordinates, small enough for each coordinate type.
pub(crate) type Place = (i16, i16);

/// The point with these coordinates.
pub(crate) fn point_of<I: OverlayInt + From<i16>>(place: Place) -> IntPoint<I> {
    IntPoint {
        x: I::from(place.0),
        y: I::from(place.1),
    }
}

/// An edge from one place to another, with data.
pub(crate) fn edge_of<I: OverlayInt + From<i16>, D>(
    from: Place,
    to: Place,
    edge_data: D,
) -> InputEdge<I, D> {
    InputEdge {
        a: point_of(from),
        b: point_of(to),
        edge_data,
    }
}

/// An edge of an answer.
pub(crate) fn vector_of<I: OverlayInt + From<i16>, D>(
    from: Place,
    to: Place,
    fill: SideFill,
    edge_data: D,
) -> DataVectorEdge<I, D> {
    DataVectorEdge {
        a: point_of(from),
        b: point_of(to),
        fill,
        edge_data,
    }
}

/// Stops the test where an end of the edge is out of range.
pub(crate) fn assert_in_range<I: OverlayInt, D: Copy>(rt: &impl Abort, edge: &InputEdge<I, D>) {
    assert!(rt; edge.a.x.is_in_range() && edge.a.y.is_in_range());
    assert!(rt; edge.b.x.is_in_range() && edge.b.y.is_in_range());
}

/// Adds an edge that is in range.
pub(crate) fn add<I: OverlayInt + From<i16>, D: OverlayEdgeData, A: Allocator + Clone>(
    rt: &impl Abort,
    overlay: &mut EdgeOverlay<I, D, A>,
    ends: (Place, Place),
    edge_data: D,
    shape_type: ShapeType,
) -> Result<(), OverlayError> {
    let edge = edge_of(ends.0, ends.1, edge_data);
    assert_in_range(rt, &edge);
    overlay.add_edge(edge, shape_type)
}

/// Adds edges that are in range and come one by one.
pub(crate) fn add_each<I: OverlayInt, D: OverlayEdgeData, A: Allocator + Clone>(
    rt: &impl Abort,
    overlay: &mut EdgeOverlay<I, D, A>,
    edges: &[InputEdge<I, D>],
) -> Result<(), OverlayError> {
    for edge in edges {
        assert_in_range(rt, edge);
    }
    overlay.add_edges(edges.iter().copied(), ShapeType::Subject)
}

/// Adds an edge from each place to the next, with this data.
pub(crate) fn add_way<I: OverlayInt + From<i16>, D: OverlayEdgeData>(
    rt: &impl Abort,
    overlay: &mut EdgeOverlay<I, D, Global>,
    places: &[Place],
    edge_data: D,
    shape_type: ShapeType,
) -> Result<(), OverlayError> {
    for i in 1..places.len() {
        let ends = (places[i - 1], places[i]);
        add(rt, overlay, ends, edge_data, shape_type)?;
    }
    Ok(())
}

/// Adds the edges of a contour, each with this data.
pub(crate) fn add_contour<I: OverlayInt + From<i16>, D: OverlayEdgeData>(
    rt: &impl Abort,
    overlay: &mut EdgeOverlay<I, D, Global>,
    places: &[Place],
    edge_data: D,
    shape_type: ShapeType,
) -> Result<(), OverlayError> {
    for i in 0..places.len() {
        let next = if i + 1 < places.len() { i + 1 } else { 0 };
        add(
            rt,
            overlay,
            (places[i], places[next]),
            edge_data,
            shape_type,
        )?;
    }
    Ok(())
}

/// The ends of the edges that the builder holds.
pub(crate) fn ends_in<I: OverlayInt, D: OverlayEdgeData>(
    alloc: Global,
    overlay: &EdgeOverlay<I, D, Global>,
) -> Result<Vec<IntLine<I>, Global>, OverlayError> {
    let mut ends = Vec::new(alloc);
    for line in overlay.edges() {
        ends.push(line)?;
    }
    Ok(ends)
}
