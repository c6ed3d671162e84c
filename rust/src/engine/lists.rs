//! Lists whose memory may be refused, and answers in such lists.

use crate::engine::width::Native;
use crate::error::OverlayError;
use crate::ffi::{Engine, Held};
use crate::i_float::int::point::IntPoint;
use crate::i_shape::int::shape::{IntContour, IntShapes};
use crate::vector::edge::{DataVectorEdge, VectorPath, VectorShape};
use ::core::mem::replace;
use ::core::ops::Range;
use alloc::vec::Vec;

/// An empty list with room.
pub(crate) fn with_room<T>(count: usize) -> Result<Vec<T>, OverlayError> {
    let mut list = Vec::new();
    make_room(&mut list, count)?;
    Ok(list)
}

/// Makes room in a list for more items.
pub(crate) fn make_room<T>(list: &mut Vec<T>, count: usize) -> Result<(), OverlayError> {
    list.try_reserve(count).map_err(|_| OverlayError::Memory)
}

/// Makes room in a list for items in the place of those that it has.
pub(crate) fn make_room_instead<T>(list: &mut Vec<T>, count: usize) -> Result<(), OverlayError> {
    make_room(list, count.saturating_sub(list.len()))
}

/// Items in a list, at most so many.
pub(crate) fn listed<T>(count: usize, items: impl Iterator<Item = T>) -> Result<Vec<T>, OverlayError> {
    let mut list = with_room(count)?;
    list.extend(items.take(count));
    Ok(list)
}

/// The same numbers in another type.
pub(crate) fn turned<A: Copy, B>(numbers: &[A], into: impl Fn(A) -> B) -> Result<Vec<B>, OverlayError> {
    listed(numbers.len(), numbers.iter().map(|&it| into(it)))
}

/// The ranges up to ends.
pub(crate) fn ranges(ends: &[usize]) -> impl ExactSizeIterator<Item = Range<usize>> + Clone + '_ {
    let mut start = 0;
    ends.iter().map(move |&end| replace(&mut start, end)..end)
}

/// The points of coordinates. Each lies within the box of the given points, so its coordinates have their type.
pub(crate) fn points_of<I: Native, C: Copy + Into<i64>>(
    coordinates: &[C],
) -> impl ExactSizeIterator<Item = IntPoint<I>> + Clone + '_ {
    coordinates.chunks_exact(2).map(|it| match *it {
        [x, y] => IntPoint::new(I::of_wide(x.into()), I::of_wide(y.into())),
        _ => IntPoint::default(),
    })
}

/// The points of coordinates that have these numbers among all.
fn path_of<I: Native, C: Copy + Into<i64>>(
    coordinates: &[C],
    range: Range<usize>,
) -> Result<IntContour<I>, OverlayError> {
    let numbers = range.start.saturating_mul(2)..range.end.saturating_mul(2);
    let mut path = with_room(range.len())?;
    path.extend(points_of(coordinates.get(numbers).unwrap_or_default()));
    Ok(path)
}

/// The edges of the coordinates of both ends of each, with their filled sides.
pub(crate) fn edges_in<I: Native, C: Copy + Into<i64>>(
    coordinates: &[C],
    fills: &[u8],
) -> Result<Vec<DataVectorEdge<I>>, OverlayError> {
    let mut ends = points_of(coordinates);
    let edge = |&fill: &u8| {
        let (a, b, data) = (ends.next()?, ends.next()?, ());
        Some(DataVectorEdge { a, b, fill, data })
    };
    listed(fills.len(), fills.iter().map_while(edge))
}

/// The contours, or the paths, of an answer.
pub(crate) fn contours_of<I: Native, E: Engine>(held: &Held<E>) -> Result<Vec<IntContour<I>>, OverlayError> {
    let mut contours = with_room(held.contour_ends().len())?;
    for range in ranges(held.contour_ends()) {
        contours.push(path_of(held.coordinates(), range)?);
    }
    Ok(contours)
}

/// The steps of a contour whose points have these numbers among all, with their filled sides.
fn steps_of<I: Native, C: Copy + Into<i64>>(
    coordinates: &[C],
    fills: &[u8],
    range: Range<usize>,
) -> Result<VectorPath<I>, OverlayError> {
    let points: IntContour<I> = path_of(coordinates, range.clone())?;
    let ends = points.iter().zip(points.iter().skip(1).chain(points.first()));
    let steps = ends.zip(fills.get(range).unwrap_or_default());
    let step = |((&a, &b), &fill)| DataVectorEdge { a, b, fill, data: () };
    listed(points.len(), steps.map(step))
}

/// The shapes of an answer, whose contours are made of the numbers of their points.
fn made_shapes<T, E: Engine>(
    held: &Held<E>,
    contour: impl Fn(Range<usize>) -> Result<T, OverlayError>,
) -> Result<Vec<Vec<T>>, OverlayError> {
    let mut contours = ranges(held.contour_ends());
    let mut shapes = with_room(held.shape_ends().len())?;
    for range in ranges(held.shape_ends()) {
        let mut shape = with_room(range.len())?;
        for points in contours.by_ref().take(range.len()) {
            shape.push(contour(points)?);
        }
        shapes.push(shape);
    }
    Ok(shapes)
}

/// The shapes of an answer.
pub(crate) fn shapes_of<I: Native, E: Engine>(held: &Held<E>) -> Result<IntShapes<I>, OverlayError> {
    made_shapes(held, |points| path_of(held.coordinates(), points))
}

/// The shapes of an answer as edges with their filled sides.
pub(crate) fn vectors_of<I: Native, E: Engine>(held: &Held<E>) -> Result<Vec<VectorShape<I>>, OverlayError> {
    made_shapes(held, |points| steps_of(held.coordinates(), held.fills(), points))
}
