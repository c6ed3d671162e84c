//! Contours and shapes from coordinates that each coordinate type has, and the test of their range.

use overlay_geom::error::OverlayError;
use overlay_geom::number::IntNumber;
use overlay_geom::path::{IntContour, IntShape, IntShapes};
use overlay_geom::point::{IntPoint, in_range};
use overlay_geom::resource::IntShapeResource;
use std::alloc::Global;
use std::process::Abort;
use std::test::Fail;

/// Points by their coordinates, small enough for each coordinate type.
pub type Points<'a> = &'a [(i16, i16)];

/// The point with these coordinates.
pub fn point_of<I: IntNumber + From<i16>>(point: (i16, i16)) -> IntPoint<I> {
    IntPoint {
        x: I::from(point.0),
        y: I::from(point.1),
    }
}

/// The contour, or the path, with these points.
pub fn contour_of<I: IntNumber + From<i16>>(
    alloc: Global,
    points: Points<'_>,
) -> Result<IntContour<I, Global>, OverlayError> {
    let mut contour = Vec::new(alloc);
    for point in points {
        contour.push(point_of(*point))?;
    }
    Ok(contour)
}

/// The shape with these contours, or several paths.
pub fn shape_of<I: IntNumber + From<i16>>(
    alloc: Global,
    contours: &[Points<'_>],
) -> Result<IntShape<I, Global>, OverlayError> {
    let mut shape = Vec::new(alloc);
    for points in contours {
        shape.push(contour_of(alloc, points)?)?;
    }
    Ok(shape)
}

/// Several shapes.
pub fn shapes_of<I: IntNumber + From<i16>>(
    alloc: Global,
    shapes: &[&[Points<'_>]],
) -> Result<IntShapes<I, Global>, OverlayError> {
    let mut all = Vec::new(alloc);
    for contours in shapes {
        all.push(shape_of(alloc, contours)?)?;
    }
    Ok(all)
}

/// Stops the test where a path is out of range.
pub fn assert_in_range<I: IntNumber, R0: IntShapeResource<I>>(rt: &impl Abort, resource: &R0) {
    for index in 0..resource.path_count() {
        assert!(rt; in_range(resource.path(index)));
    }
}

/// Returns whether the closed path is the wanted, wherever it begins.
pub fn is_round<T: PartialEq>(path: &[T], wanted: &[T]) -> bool {
    if path.len() != wanted.len() {
        return false;
    }
    for start in 0..path.len() {
        if path[start..] == wanted[..path.len() - start]
            && path[..start] == wanted[path.len() - start..]
        {
            return true;
        }
    }
    path.is_empty()
}

#[test]
fn points_keep_their_order(rt: HostRuntime) -> Result<(), Fail> {
    let contour = contour_of::<i64>(rt.alloc(), &[(0, -1), (2, 3)])?;
    assert_in_range(&rt, &contour);
    assert!(rt; contour[..] == [IntPoint { x: 0, y: -1 }, IntPoint { x: 2, y: 3 }]);
    let shapes = shapes_of::<i64>(rt.alloc(), &[&[&[(0, -1), (2, 3)]], &[]])?;
    assert!(rt; shapes.len() == 2 && shapes[0].len() == 1 && shapes[1].len() == 0);
    assert!(rt; shapes[0][0] == contour);
    Ok(())
}

#[test]
fn a_closed_path_begins_anywhere(rt: HostRuntime) {
    assert!(rt; is_round(&[1, 2, 3], &[3, 1, 2]) && is_round::<u8>(&[], &[]));
    assert!(rt; !is_round(&[1, 2, 3], &[3, 2, 1]) && !is_round(&[1, 2], &[1, 2, 3]));
}
