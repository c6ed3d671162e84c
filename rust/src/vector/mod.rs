//! Answers as edges.

pub mod edge;

use crate::core::edge_data::OverlayEdgeData;
use crate::core::integer::OverlayInt;
use crate::engine::lists::with_room;
use crate::error::OverlayError;
use crate::i_float::int::point::IntPoint;
use crate::i_shape::int::shape::IntShape;
use crate::vector::edge::{DataVectorEdge, DataVectorPath, DataVectorShape, Reverse};
use alloc::vec::Vec;

/// The shapes of an overlay that keeps all points as edges, by the edges of its arrangement: each step of them is one
/// of these. Neighbours on one line with equal filled sides and data are joined where that is asked.
pub(crate) fn shapes_by<I: OverlayInt, D: OverlayEdgeData>(
    found: &[IntShape<I>],
    edges: &[DataVectorEdge<I, D>],
    is_joined: bool,
    store: &mut D::Store,
) -> Result<Vec<DataVectorShape<I, D>>, OverlayError> {
    let mut shapes = with_room(found.len())?;
    for contours in found {
        let mut shape = with_room(contours.len())?;
        for contour in contours {
            shape.push(path_of(edges, contour, is_joined, store)?);
        }
        shapes.push(shape);
    }
    Ok(shapes)
}

/// A contour as edges of the arrangement.
fn path_of<I: OverlayInt, D: OverlayEdgeData>(
    edges: &[DataVectorEdge<I, D>],
    contour: &[IntPoint<I>],
    is_joined: bool,
    store: &mut D::Store,
) -> Result<DataVectorPath<I, D>, OverlayError> {
    let mut path: DataVectorPath<I, D> = with_room(contour.len())?;
    let next = contour.iter().skip(1).chain(contour.first());
    for (&a, &b) in contour.iter().zip(next) {
        let edge = edge_of(edges, a, b, store)?;
        match path.last_mut() {
            Some(last) if is_joined && is_straight(last, &edge) => last.b = edge.b,
            _ => path.push(edge),
        }
    }
    if is_joined {
        join_ends(&mut path);
    }
    Ok(path)
}

/// The edge of the arrangement from one point to another. Edges are in order, each with its smaller end first.
fn edge_of<I: OverlayInt, D: OverlayEdgeData>(
    edges: &[DataVectorEdge<I, D>],
    a: IntPoint<I>,
    b: IntPoint<I>,
    store: &mut D::Store,
) -> Result<DataVectorEdge<I, D>, OverlayError> {
    let is_forward = a < b;
    let ends = if is_forward { (a, b) } else { (b, a) };
    let found = edges.binary_search_by(|it| (it.a, it.b).cmp(&ends));
    // (each step is an edge; were it none, that would be told)
    let edge = found
        .ok()
        .and_then(|at| edges.get(at))
        .ok_or(OverlayError::Other(u32::MAX))?;
    let (fill, data) = if is_forward {
        (edge.fill, edge.data)
    } else {
        (edge.fill.reverse(), edge.data.reversed(store))
    };
    Ok(DataVectorEdge { a, b, fill, data })
}

/// Whether two edges lie on one line and have equal filled sides and data.
fn is_straight<I: OverlayInt, D: PartialEq>(one: &DataVectorEdge<I, D>, other: &DataVectorEdge<I, D>) -> bool {
    let along = |it: &DataVectorEdge<I, D>| (it.b.x.wide_difference(it.a.x), it.b.y.wide_difference(it.a.y));
    let ((x, y), (z, w)) = (along(one), along(other));
    one.fill == other.fill && one.data == other.data && x.saturating_mul(w) == y.saturating_mul(z)
}

/// Makes the last edge and the first one of a path one, where they lie on one line and have equal filled sides and
/// data.
fn join_ends<I: OverlayInt, D: OverlayEdgeData>(path: &mut DataVectorPath<I, D>) {
    let Some(last) = path.last().copied() else { return };
    if path.len() > 1 {
        if let Some(first) = path.first_mut() {
            if is_straight(&last, first) {
                first.a = last.a;
                path.pop();
            }
        }
    }
}
