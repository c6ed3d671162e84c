//! Squares in columns, and a comb: 50,000 edges each.

use i_overlay::i_float::int::point::IntPoint;
use i_overlay::i_shape::flat::buffer::FlatContoursBuffer;
use i_overlay::i_shape::int::shape::{IntContour, IntShape, IntShapes};
use std::alloc::Global;
use std::test::Fail;

/// Number of squares, and of teeth of the comb.
pub(crate) const COUNT: usize = 12500;

/// Number of squares in a column.
pub(crate) const ROWS: usize = 20;

/// The point with these coordinates.
pub(crate) fn point(x: i32, y: i32) -> IntPoint<i32> {
    IntPoint { x, y }
}

/// The number as a coordinate.
pub(crate) fn coordinate(number: usize) -> i32 {
    number as i32
}

/// Lower left corner of a square. Squares are numbered by columns, from below, and stand ten units apart.
pub(crate) fn corner_at(number: usize) -> IntPoint<i32> {
    point(
        10 * coordinate(number / ROWS),
        10 * coordinate(number % ROWS),
    )
}

/// The square with its lower left corner this far right and up of that of a number, counterclockwise.
pub(crate) fn square_at(number: usize, by: i32, side: i32) -> [IntPoint<i32>; 4] {
    let corner = corner_at(number);
    let (x, y) = (corner.x + by, corner.y + by);
    [
        point(x, y),
        point(x + side, y),
        point(x + side, y + side),
        point(x, y + side),
    ]
}

/// The square as it comes out: from its upper left corner on.
pub(crate) fn outline_at(number: usize, by: i32, side: i32) -> [IntPoint<i32>; 4] {
    let [a, b, c, d] = square_at(number, by, side);
    [d, a, b, c]
}

/// All of these squares.
pub(crate) fn squares(alloc: Global, by: i32, side: i32) -> Result<IntShape<i32, Global>, Fail> {
    let mut shape = Vec::new(alloc);
    for number in 0..COUNT {
        shape.push(Vec::from_array(alloc, square_at(number, by, side))?)?;
    }
    Ok(shape)
}

/// Each of these squares as a shape.
pub(crate) fn lone_squares(
    alloc: Global,
    by: i32,
    side: i32,
) -> Result<IntShapes<i32, Global>, Fail> {
    let mut shapes = Vec::new(alloc);
    for contour in squares(alloc, by, side)? {
        let shape: IntShape<i32, Global> = Vec::from_array(alloc, [contour])?;
        shapes.push(shape)?;
    }
    Ok(shapes)
}

/// These squares in a flat buffer.
pub(crate) fn flat_squares(
    alloc: Global,
    by: i32,
    side: i32,
) -> Result<FlatContoursBuffer<i32, Global>, Fail> {
    let mut buffer = FlatContoursBuffer::default(alloc)?;
    for number in 0..COUNT {
        buffer.add_contour(&square_at(number, by, side))?;
    }
    Ok(buffer)
}

/// Tests whether these are the shapes of those squares, each as it comes out.
pub(crate) fn are_squares(shapes: &[IntShape<i32, Global>], by: i32, side: i32) -> bool {
    if shapes.len() != COUNT {
        return false;
    }
    for number in 0..COUNT {
        let shape = &shapes[number];
        let wanted = outline_at(number, by, side);
        if shape.len() != 1 || shape[0].as_slice() != wanted.as_slice() {
            return false;
        }
    }
    true
}

/// A comb that resolves its teeth: the tooth of a number n reaches from 4n to 4n + 2 and up to 10, and gaps reach down
/// to 1. It has four edges for each tooth, and runs counterclockwise.
pub(crate) fn comb(alloc: Global) -> Result<IntContour<i32, Global>, Fail> {
    comb_of(alloc, COUNT)
}

/// Such a comb with this number of teeth.
pub(crate) fn comb_of(alloc: Global, teeth: usize) -> Result<IntContour<i32, Global>, Fail> {
    let mut contour = Vec::new(alloc);
    contour.push(point(0, 0))?;
    contour.push(point(4 * coordinate(teeth) - 2, 0))?;
    for place in 0..teeth {
        let x = 4 * coordinate(teeth - 1 - place);
        contour.push(point(x + 2, 10))?;
        contour.push(point(x, 10))?;
        if x > 0 {
            contour.push(point(x, 1))?;
            contour.push(point(x - 2, 1))?;
        }
    }
    Ok(contour)
}
