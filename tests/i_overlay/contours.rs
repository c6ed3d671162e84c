//! Builders of contours from small coordinates, shared by tests.

use crate::builders::{add, empty};
use i_overlay::overlay::{Overlay, ShapeType};
use overlay_geom::error::OverlayError;
use overlay_geom::integer::OverlayInt;
use small_points::contours::{Points, contour_of};
use std::alloc::Global;
use std::process::Abort;

/// A square, counterclockwise.
pub(crate) const SQUARE: Points<'static> = &[(0, 0), (2, 0), (2, 2), (0, 2)];

/// The fills of its edges where it is added as a subject.
pub(crate) const OF_SQUARE: [u8; 4] = [2, 1, 2, 1];

/// Adds contours that are in range, one by one.
pub(crate) fn add_contours<I: OverlayInt + From<i16>>(
    rt: &impl Abort,
    alloc: Global,
    overlay: &mut Overlay<I, Global>,
    contours: &[Points<'_>],
    shape_type: ShapeType,
) -> Result<(), OverlayError> {
    for points in contours {
        let contour = contour_of(alloc, points)?;
        add(rt, overlay, &contour, shape_type)?;
    }
    Ok(())
}

/// A builder with these contours.
pub(crate) fn builder_of(
    rt: &impl Abort,
    alloc: Global,
    contours: &[Points<'_>],
    shape_type: ShapeType,
) -> Result<Overlay<i32, Global>, OverlayError> {
    let mut overlay = empty(alloc)?;
    add_contours(rt, alloc, &mut overlay, contours, shape_type)?;
    Ok(overlay)
}
