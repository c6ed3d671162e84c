//! Each kind of resource at each coordinate type: the number of paths and the paths.

use overlay_geom::number::IntNumber;
use overlay_geom::path::{IntContour, IntShape, IntShapes, PathRef};
use overlay_geom::point::IntPoint;
use overlay_geom::resource::IntShapeResource;
use overlay_geom::resource::borrowed::{BorrowedContours, BorrowedShapes};
use std::alloc::Global;
use std::test::Fail;

// Returns whether the resource has these points as its path with this number.
fn has_path<I: IntNumber + PartialEq, R: IntShapeResource<I>>(
    resource: &R,
    index: usize,
    points: &[IntPoint<I>],
) -> bool {
    index < resource.path_count() && resource.path(index) == points
}

// Returns whether paths read in turn, from each number on, are those with their numbers.
fn is_read_in_turn<I: IntNumber + PartialEq, R: IntShapeResource<I>>(resource: &R) -> bool {
    for first in 0..resource.path_count() {
        let mut cursor = None;
        for index in first..resource.path_count() {
            if resource.path_at(index, &mut cursor) != resource.path(index) {
                return false;
            }
        }
    }
    true
}

// A contour with these points.
fn contour_of<I: IntNumber>(
    alloc: Global,
    points: &[IntPoint<I>],
) -> Result<IntContour<I, Global>, Fail> {
    let mut contour = Vec::new(alloc);
    contour.extend_from_slice(points)?;
    Ok(contour)
}

// A shape with these points as its outline and those as its hole.
fn shape_of<I: IntNumber>(
    alloc: Global,
    outline: &[IntPoint<I>],
    hole: &[IntPoint<I>],
) -> Result<IntShape<I, Global>, Fail> {
    let mut shape = Vec::new(alloc);
    shape.push(contour_of(alloc, outline)?)?;
    shape.push(contour_of(alloc, hole)?)?;
    Ok(shape)
}

// Tests whether a contour, and a path that borrows it, each have it as their only path.
fn is_one_path<I: IntNumber + PartialEq>(
    alloc: Global,
    points: &[IntPoint<I>],
) -> Result<bool, Fail> {
    let contour = contour_of(alloc, points)?;
    let path = PathRef::new(points);
    Ok(
        contour.path_count() == 1
            && has_path(&contour, 0, points)
            && is_read_in_turn(&contour)
            && path.path_count() == 1
            && has_path(&path, 0, points)
            && is_read_in_turn(&path),
    )
}

// Tests whether a shape has its outline and its hole as paths, in this order.
fn has_outline_and_hole<I: IntNumber + PartialEq>(
    alloc: Global,
    outline: &[IntPoint<I>],
    hole: &[IntPoint<I>],
) -> Result<bool, Fail> {
    let shape = shape_of(alloc, outline, hole)?;
    Ok(
        shape.path_count() == 2
            && has_path(&shape, 0, outline)
            && has_path(&shape, 1, hole)
            && is_read_in_turn(&shape),
    )
}

// Tests whether shapes have the contours of each as paths, past a shape without contours.
fn has_contours_of_all<I: IntNumber + PartialEq>(
    alloc: Global,
    outline: &[IntPoint<I>],
    hole: &[IntPoint<I>],
) -> Result<bool, Fail> {
    let mut shapes: IntShapes<I, Global> = Vec::new(alloc);
    shapes.push(shape_of(alloc, outline, hole)?)?;
    shapes.push(Vec::new(alloc))?;
    shapes.push(shape_of(alloc, hole, outline)?)?;
    Ok(
        shapes.path_count() == 4
            && has_path(&shapes, 0, outline)
            && has_path(&shapes, 1, hole)
            && has_path(&shapes, 2, hole)
            && has_path(&shapes, 3, outline)
            && is_read_in_turn(&shapes),
    )
}

// Tests whether borrowed contours are each a path, and borrowed shapes have the contours of each as paths.
fn lends_paths<I: IntNumber + PartialEq>(
    alloc: Global,
    outline: &[IntPoint<I>],
    hole: &[IntPoint<I>],
) -> Result<bool, Fail> {
    let shape = shape_of(alloc, outline, hole)?;
    let contours = BorrowedContours { contours: &shape };
    let shapes = [shape_of(alloc, hole, outline)?, Vec::new(alloc)];
    let shapes = BorrowedShapes { shapes: &shapes };
    Ok(
        contours.path_count() == 2
            && has_path(&contours, 0, outline)
            && has_path(&contours, 1, hole)
            && is_read_in_turn(&contours)
            && shapes.path_count() == 2
            && has_path(&shapes, 0, hole)
            && has_path(&shapes, 1, outline)
            && is_read_in_turn(&shapes),
    )
}

// The triangle with its right angle at (low, low) and legs up to the other coordinate.
fn triangle<I: Copy>(low: I, high: I) -> [IntPoint<I>; 3] {
    [
        IntPoint::new(low, low),
        IntPoint::new(high, low),
        IntPoint::new(low, high),
    ]
}

#[test]
fn paths_at_i16(rt: HostRuntime) -> Result<(), Fail> {
    let (outline, hole) = (triangle(0i16, 16383), triangle(1i16, 4));
    assert!(rt; is_one_path(rt.alloc(), &outline)?);
    assert!(rt; has_outline_and_hole(rt.alloc(), &outline, &hole)?);
    assert!(rt; has_contours_of_all(rt.alloc(), &outline, &hole)?);
    assert!(rt; lends_paths(rt.alloc(), &outline, &hole)?);
    Ok(())
}

#[test]
fn paths_at_i32(rt: HostRuntime) -> Result<(), Fail> {
    let (outline, hole) = (triangle(0i32, 1073741823), triangle(1i32, 4));
    assert!(rt; is_one_path(rt.alloc(), &outline)?);
    assert!(rt; has_outline_and_hole(rt.alloc(), &outline, &hole)?);
    assert!(rt; has_contours_of_all(rt.alloc(), &outline, &hole)?);
    assert!(rt; lends_paths(rt.alloc(), &outline, &hole)?);
    Ok(())
}

#[test]
fn paths_at_i64(rt: HostRuntime) -> Result<(), Fail> {
    let (outline, hole) = (triangle(0i64, 4611686018427387903), triangle(1i64, 4));
    assert!(rt; is_one_path(rt.alloc(), &outline)?);
    assert!(rt; has_outline_and_hole(rt.alloc(), &outline, &hole)?);
    assert!(rt; has_contours_of_all(rt.alloc(), &outline, &hole)?);
    assert!(rt; lends_paths(rt.alloc(), &outline, &hole)?);
    Ok(())
}

#[test]
fn without_contours_there_is_no_path(rt: HostRuntime) -> Result<(), Fail> {
    let shape: IntShape<i32, _> = Vec::new(rt.alloc());
    assert_eq!(rt; shape.path_count(), 0);
    let mut shapes: IntShapes<i32, _> = Vec::new(rt.alloc());
    assert_eq!(rt; shapes.path_count(), 0);
    shapes.push(shape)?;
    assert_eq!(rt; shapes.path_count(), 0);
    Ok(())
}

#[test]
fn an_empty_contour_is_a_path(rt: HostRuntime) {
    let contour: IntContour<i32, _> = Vec::new(rt.alloc());
    assert_eq!(rt; contour.path_count(), 1);
    assert!(rt; has_path(&contour, 0, &[]));
    assert!(rt; has_path(&PathRef::<i32>::new(&[]), 0, &[]));
}
