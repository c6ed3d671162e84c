//! Squares, lines and shapes from small coordinates.

use overlay_geom::error::OverlayError;
use overlay_geom::integer::OverlayInt;
use overlay_geom::path::{IntLine, IntShapes};
use small_points::contours::{Points, point_of, shapes_of};
use std::alloc::Global;

/// A square, counterclockwise.
pub(crate) const SQUARE: Points<'static> = &[(0, 0), (4, 0), (4, 4), (0, 4)];

/// A square of 20 round the origin, counterclockwise from its upper left corner.
pub(crate) const WIDE: Points<'static> = &[(-10, 10), (-10, -10), (10, -10), (10, 10)];

/// A square of 10 round the origin, clockwise from its lower left corner.
pub(crate) const NARROW: Points<'static> = &[(-5, -5), (-5, 5), (5, 5), (5, -5)];

/// The line between two points.
pub(crate) fn line_of<I: OverlayInt + From<i16>>(from: (i16, i16), to: (i16, i16)) -> IntLine<I> {
    [point_of(from), point_of(to)]
}

/// Tests whether these are the shapes, each with its contours.
pub(crate) fn are_shapes<I: OverlayInt + PartialEq + From<i16>>(
    alloc: Global,
    shapes: &IntShapes<I, Global>,
    wanted: &[&[Points<'_>]],
) -> Result<bool, OverlayError> {
    Ok(*shapes == shapes_of::<I>(alloc, wanted)?)
}
