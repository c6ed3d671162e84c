//! Squares, and their edges.

use crate::builders::edge;
use i_overlay::vector::edge::DataVectorEdge;
use overlay_geom::point::IntPoint;

// A point by its coordinates.
fn corner<I>(x: I, y: I) -> IntPoint<I> {
    IntPoint { x, y }
}

/// The square between two coordinates, counterclockwise.
pub(crate) fn square<I: Copy>(low: I, high: I) -> [IntPoint<I>; 4] {
    [
        corner(low, low),
        corner(high, low),
        corner(high, high),
        corner(low, high),
    ]
}

/// The edges of this square with their fills, where it is added as a subject.
pub(crate) fn square_edges<I: Copy>(low: I, high: I) -> [DataVectorEdge<I, ()>; 4] {
    let [a, b, c, d] = square(low, high);
    [edge(a, d, 2), edge(a, b, 1), edge(d, c, 2), edge(b, c, 1)]
}
