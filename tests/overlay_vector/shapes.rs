//! Rows of coloured edges, and the shapes that an overlay makes of them.

use crate::colour::Colour;
use crate::edges::{Place, add_way, vector_of};
use overlay_geom::error::OverlayError;
use overlay_geom::fill_rule::FillRule;
use overlay_geom::integer::OverlayInt;
use overlay_geom::overlay_rule::OverlayRule;
use overlay_order::vector::{DataVectorEdge, SideFill};
use overlay_vector::edge_overlay::{EdgeOverlay, IntOverlayOptions, ShapeType};
use overlay_vector::path::{DataVectorPath, DataVectorShape};
use small_points::contours::is_round;
use std::alloc::Global;
use std::process::Abort;

/// A colour, and places: an edge of the colour leads from each to the next.
pub(crate) type Way<'a> = (Colour, &'a [Place]);

/// The start of an edge of a contour, its filled sides and its colour. It ends where the next begins.
pub(crate) type Begun = (Place, SideFill, Colour);

/// The query of an overlay, and the expected shapes.
#[derive(Drop)]
pub(crate) struct Row<'a> {
    /// The ways of the subject.
    pub(crate) subj: &'a [Way<'a>],
    /// The ways of the clip.
    pub(crate) clip: &'a [Way<'a>],
    /// The overlay rule.
    pub(crate) rule: OverlayRule,
    /// The fill rule.
    pub(crate) fill: FillRule,
    /// Tests whether collinear edges stay as they are, and are not joined.
    pub(crate) keeps_edges: bool,
    /// The contours of each shape, wherever they begin.
    pub(crate) wanted: &'a [&'a [&'a [Begun]]],
}

/// The row's options.
pub(crate) fn options_of<I: OverlayInt>(row: &Row<'_>) -> IntOverlayOptions<I::WideUInt> {
    if row.keeps_edges {
        IntOverlayOptions::keep_output_points()
    } else {
        IntOverlayOptions::default()
    }
}

// Adds the edges of the ways.
fn add_ways<I: OverlayInt + From<i16>>(
    rt: &impl Abort,
    overlay: &mut EdgeOverlay<I, Colour, Global>,
    ways: &[Way<'_>],
    shape_type: ShapeType,
) -> Result<(), OverlayError> {
    for way in ways {
        add_way(rt, overlay, way.1, way.0, shape_type)?;
    }
    Ok(())
}

/// A builder with the row's edges and options.
pub(crate) fn builder_of<I: OverlayInt + From<i16>>(
    rt: &impl Abort,
    alloc: Global,
    row: &Row<'_>,
) -> Result<EdgeOverlay<I, Colour, Global>, OverlayError> {
    let mut overlay = EdgeOverlay::new(alloc, 0)?;
    overlay.options = options_of::<I>(row);
    add_ways(rt, &mut overlay, row.subj, ShapeType::Subject)?;
    add_ways(rt, &mut overlay, row.clip, ShapeType::Clip)?;
    Ok(overlay)
}

// The contour of these edges.
fn contour_of<I: OverlayInt + From<i16>>(
    alloc: Global,
    edges: &[Begun],
) -> Result<Vec<DataVectorEdge<I, Colour>, Global>, OverlayError> {
    let mut contour = Vec::new(alloc);
    for i in 0..edges.len() {
        let next = if i + 1 < edges.len() { i + 1 } else { 0 };
        let (from, fill, colour) = edges[i];
        contour.push(vector_of(from, edges[next].0, fill, colour))?;
    }
    Ok(contour)
}

// Tests whether the shape has these contours.
fn is_shape<I: OverlayInt + PartialEq + From<i16>>(
    alloc: Global,
    shape: &[DataVectorPath<I, Colour, Global>],
    wanted: &[&[Begun]],
) -> Result<bool, OverlayError> {
    if shape.len() != wanted.len() {
        return Ok(false);
    }
    for i in 0..wanted.len() {
        if !is_round(&shape[i], &contour_of::<I>(alloc, wanted[i])?) {
            return Ok(false);
        }
    }
    Ok(true)
}

/// Tests whether these are the shapes with these contours.
pub(crate) fn are_shapes<I: OverlayInt + PartialEq + From<i16>>(
    alloc: Global,
    shapes: &[DataVectorShape<I, Colour, Global>],
    wanted: &[&[&[Begun]]],
) -> Result<bool, OverlayError> {
    if shapes.len() != wanted.len() {
        return Ok(false);
    }
    for i in 0..wanted.len() {
        if !is_shape::<I>(alloc, &shapes[i], wanted[i])? {
            return Ok(false);
        }
    }
    Ok(true)
}
