//! Squares, tiles and grids from small coordinates.

use overlay_geom::error::OverlayError;
use overlay_geom::integer::OverlayInt;
use overlay_geom::path::{IntContour, IntShapes};
use overlay_geom::point::IntPoint;
use overlay_tiles::grid::Grid;
use small_points::contours::{Points, contour_of};
use std::alloc::Global;

/// The corners of the square between two points on the diagonal, from the lower on, counterclockwise.
pub(crate) fn corners_of<I: OverlayInt>(
    alloc: Global,
    least: I,
    greatest: I,
) -> Result<IntContour<I, Global>, OverlayError> {
    let mut corners = Vec::new(alloc);
    for (x, y) in [
        (least, least),
        (greatest, least),
        (greatest, greatest),
        (least, greatest),
    ] {
        corners.push(IntPoint { x, y })?;
    }
    Ok(corners)
}

/// Tests whether these are the shapes, each of a single contour.
pub(crate) fn are_tiles<I: OverlayInt + PartialEq + From<i16>>(
    alloc: Global,
    shapes: &IntShapes<I, Global>,
    wanted: &[Points<'_>],
) -> Result<bool, OverlayError> {
    let mut all = Vec::new(alloc);
    for points in wanted {
        let mut shape = Vec::new(alloc);
        shape.push(contour_of(alloc, points)?)?;
        all.push(shape)?;
    }
    Ok(*shapes == all)
}

/// The grid of cells of this width and height.
pub(crate) fn grid_of<I: OverlayInt + From<i16>>(width: i16, height: i16) -> Grid<I> {
    Grid {
        width: I::from(width),
        height: I::from(height),
    }
}
