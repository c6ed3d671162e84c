//! Buffers of contours and of shapes at each coordinate type.

use overlay_geom::error::OverlayError;
use overlay_geom::flat::contours::FlatContoursBuffer;
use overlay_geom::flat::shapes::FlatShapesBuffer;
use overlay_geom::number::IntNumber;
use overlay_geom::point::IntPoint;
use overlay_geom::resource::IntShapeResource;
use std::alloc::Global;

// The square with its lower left corner at (low, low) and its upper right corner at (high, high).
fn square<I: Copy>(low: I, high: I) -> [IntPoint<I>; 4] {
    [
        IntPoint::new(low, low),
        IntPoint::new(high, low),
        IntPoint::new(high, high),
        IntPoint::new(low, high),
    ]
}

// A buffer of two contours.
fn buffer_of<I: IntNumber>(
    alloc: Global,
    first: &[IntPoint<I>],
    second: &[IntPoint<I>],
) -> Result<FlatContoursBuffer<I, Global>, OverlayError> {
    let mut buffer = FlatContoursBuffer::default(alloc)?;
    buffer.add_contour(first)?;
    buffer.add_contour(second)?;
    Ok(buffer)
}

// Tests whether contours are added one behind another, read as the paths of a resource, and dropped.
fn holds_added_contours<I: IntNumber + PartialEq>(
    alloc: Global,
    first: &[IntPoint<I>],
    second: &[IntPoint<I>],
) -> Result<bool, OverlayError> {
    let mut buffer = FlatContoursBuffer::default(alloc)?;
    let begins_empty = buffer.path_count() == 0 && buffer.as_first_contour().is_empty();
    buffer.add_contour(first)?;
    let has_one = buffer.is_single_contour();
    buffer.add_contour(second)?;
    let has_both = buffer.path_count() == 2
        && !buffer.is_single_contour()
        && buffer.path(0) == first
        && buffer.path(1) == second
        && buffer.as_first_contour() == first;
    buffer.clear_and_reserve(8, 2)?;
    let ends_empty = buffer.points.is_empty() && buffer.ranges.is_empty();
    Ok(begins_empty && has_one && has_both && ends_empty)
}

// Tests whether a range that is not inside the points is an empty path, also where it is the first.
fn reads_ranges_inside_alone<I: IntNumber + PartialEq>(
    alloc: Global,
    points: &[IntPoint<I>],
) -> Result<bool, OverlayError> {
    let mut buffer = FlatContoursBuffer::default(alloc)?;
    buffer.points.extend_from_slice(points)?;
    buffer.ranges.push(0..4)?;
    buffer.ranges.push(2..9)?;
    let second_is_empty = buffer.path_count() == 2
        && buffer.path(0) == points
        && buffer.path(1).is_empty();
    buffer.ranges[0] = 3..2;
    let first_is_empty = buffer.path(0).is_empty()
        && buffer.as_first_contour().is_empty()
        && buffer.as_first_contour_mut().is_empty();
    Ok(second_is_empty && first_is_empty)
}

// Tests whether the first contour is turned round where it is lent, and the second stays.
fn writes_first_contour<I: IntNumber + PartialEq>(
    alloc: Global,
    first: &[IntPoint<I>],
    second: &[IntPoint<I>],
) -> Result<bool, OverlayError> {
    let mut turned = Vec::new(alloc);
    turned.extend_from_slice(first)?;
    turned.as_mut_slice().reverse();
    let mut buffer = buffer_of(alloc, first, second)?;
    buffer.as_first_contour_mut().reverse();
    Ok(
        buffer.as_first_contour() == turned.as_slice()
            && buffer.path_count() == 2
            && buffer.path(1) == second,
    )
}

// Tests whether a buffer and its clone are equal, and stay apart.
fn is_cloned<I: IntNumber + PartialEq>(
    alloc: Global,
    first: &[IntPoint<I>],
    second: &[IntPoint<I>],
) -> Result<bool, OverlayError> {
    let buffer = buffer_of(alloc, first, second)?;
    let mut other = buffer.clone()?;
    let begins_equal = other == buffer;
    other.add_contour(first)?;
    Ok(begins_equal && other != buffer && buffer.path_count() == 2)
}

// Tests the lists of three shapes: the second has a contour whose range is not inside the points, and the third a range
// that is not inside the contours.
fn has_shapes<I: IntNumber + PartialEq>(
    alloc: Global,
    first: &[IntPoint<I>],
    second: &[IntPoint<I>],
) -> Result<bool, OverlayError> {
    let mut buffer = FlatShapesBuffer::with_capacity(alloc, 8, 3, 3)?;
    buffer.points.extend_from_slice(first)?;
    buffer.points.extend_from_slice(second)?;
    buffer.contour_ranges.push(0..4)?;
    buffer.contour_ranges.push(4..8)?;
    buffer.contour_ranges.push(7..9)?;
    buffer.shape_ranges.push(0..2)?;
    buffer.shape_ranges.push(2..3)?;
    buffer.shape_ranges.push(1..4)?;
    let shapes = buffer.to_shapes()?;
    let clone = buffer.clone()?;
    Ok(
        shapes.len() == 3
            && shapes[0].len() == 2
            && shapes[0][0].as_slice() == first
            && shapes[0][1].as_slice() == second
            && shapes[1].len() == 1
            && shapes[1][0].is_empty()
            && shapes[2].is_empty()
            && clone == buffer,
    )
}

// Tests whether buffers without contours are equal, whatever room was taken, and come out as no shapes.
fn are_equal_where_empty<I: IntNumber + PartialEq>(alloc: Global) -> Result<bool, OverlayError> {
    let contours: FlatContoursBuffer<I, Global> = FlatContoursBuffer::default(alloc)?;
    let shapes: FlatShapesBuffer<I, Global> = FlatShapesBuffer::default(alloc)?;
    Ok(
        contours == contours.clone()?
            && shapes == FlatShapesBuffer::with_capacity(alloc, 4, 2, 1)?
            && shapes.to_shapes()?.is_empty(),
    )
}

// Tests whether all of this is so.
fn works<I: IntNumber + PartialEq>(
    alloc: Global,
    first: &[IntPoint<I>],
    second: &[IntPoint<I>],
) -> Result<bool, OverlayError> {
    Ok(
        holds_added_contours(alloc, first, second)?
            && reads_ranges_inside_alone(alloc, first)?
            && writes_first_contour(alloc, first, second)?
            && is_cloned(alloc, first, second)?
            && has_shapes(alloc, first, second)?
            && are_equal_where_empty::<I>(alloc)?,
    )
}

#[test]
fn buffers_at_i16(rt: HostRuntime) -> Result<(), OverlayError> {
    assert!(rt; works(rt.alloc(), &square(0i16, 16383), &square(1i16, 4))?);
    Ok(())
}

#[test]
fn buffers_at_i32(rt: HostRuntime) -> Result<(), OverlayError> {
    assert!(rt; works(rt.alloc(), &square(0i32, 1073741823), &square(1i32, 4))?);
    Ok(())
}

#[test]
fn buffers_at_i64(rt: HostRuntime) -> Result<(), OverlayError> {
    assert!(rt;
        works(
            rt.alloc(),
            &square(0i64, 4611686018427387903),
            &square(1i64, 4)
        )?
    );
    Ok(())
}
