//! Contours and shapes of small coordinates, in memory that is granted.

use crate::refusals::{Answer, Memory};
use i_overlay::i_float::int::point::IntPoint;
use i_overlay::i_shape::flat::buffer::FlatContoursBuffer;
use i_overlay::i_shape::int::shape::{IntContour, IntShape, IntShapes};
use i_overlay::integer::OverlayInt;

/// A coordinate type, and what tests ask of it.
pub(crate) trait Width: OverlayInt + PartialEq + From<i16> {}

impl Width for i16 {}

impl Width for i32 {}

impl Width for i64 {}

/// The point with these coordinates.
pub(crate) fn point<I: Width>(x: i16, y: i16) -> IntPoint<I> {
    IntPoint {
        x: I::from(x),
        y: I::from(y),
    }
}

/// The square between two coordinates, counterclockwise.
pub(crate) fn square<I: Width>(low: i16, high: i16) -> [IntPoint<I>; 4] {
    [
        point(low, low),
        point(high, low),
        point(high, high),
        point(low, high),
    ]
}

/// Number of paths of each resource.
pub(crate) const PATHS: usize = 3;

/// The square at a place among those of the resources: none of them meets another.
pub(crate) fn square_at<I: Width>(place: usize) -> [IntPoint<I>; 4] {
    match place {
        0 => square(10, 12),
        1 => square(14, 16),
        _ => square(18, 20),
    }
}

/// The first squares as contours.
pub(crate) fn squares<I: Width>(
    memory: Memory<'_>,
    count: usize,
) -> Answer<IntShape<I, Memory<'_>>> {
    let mut shape = Vec::new(memory);
    for place in 0..count {
        let contour: IntContour<I, Memory<'_>> = Vec::from_array(memory, square_at(place))?;
        shape.push(contour)?;
    }
    Ok(shape)
}

/// Each square as a shape.
pub(crate) fn lone_squares<I: Width>(memory: Memory<'_>) -> Answer<IntShapes<I, Memory<'_>>> {
    let mut shapes = Vec::new(memory);
    for contour in squares(memory, PATHS)? {
        let shape: IntShape<I, Memory<'_>> = Vec::from_array(memory, [contour])?;
        shapes.push(shape)?;
    }
    Ok(shapes)
}

/// The squares in a flat buffer.
pub(crate) fn flat_squares<I: Width>(
    memory: Memory<'_>,
) -> Answer<FlatContoursBuffer<I, Memory<'_>>> {
    let mut buffer = FlatContoursBuffer::default(memory)?;
    for place in 0..PATHS {
        buffer.add_contour(&square_at(place))?;
    }
    Ok(buffer)
}
