//! Graphs of a few counted edges, and the points at which steps begin.

use overlay_arrange::content::Content;
use overlay_geom::error::OverlayError;
use overlay_geom::fill_rule::FillRule;
use overlay_geom::number::IntNumber;
use overlay_geom::point::IntPoint;
use overlay_geom::solver::Solver;
use overlay_graph::balance::is_balanced;
use overlay_graph::graph::Graph;
use overlay_order::count::ShapeCountBoolean;
use overlay_order::edge::{CountedEdge, compare_points};
use overlay_walk::step::Step;
use std::alloc::Global;
use std::process::Abort;

/// An edge by the coordinates of its ends, and the number of times that the subject passes it.
pub type Counted = (i16, i16, i16, i16, i32);

/// A square with a triangle in it that touches its left side in the point (0, 3).
pub const TOUCHING: [Counted; 7] = [
    (0, 0, 6, 0, 1),
    (6, 0, 6, 6, 1),
    (0, 6, 6, 6, -1),
    (0, 0, 0, 6, -1),
    (0, 3, 2, 4, 1),
    (2, 2, 2, 4, -1),
    (0, 3, 2, 2, -1),
];

// The point with these coordinates.
fn point_of<I: IntNumber + From<i16>>(x: i16, y: i16) -> IntPoint<I> {
    IntPoint::new(I::from(x), I::from(y))
}

// Adds the edge, which leads from its smaller to its larger end in the coordinate range.
fn push<I: IntNumber + From<i16>>(
    rt: &impl Abort,
    content: &mut Content<I, ShapeCountBoolean, Global>,
    counted: Counted,
) -> Result<(), OverlayError> {
    let (ax, ay, bx, by, subj) = counted;
    let (a, b) = (point_of::<I>(ax, ay), point_of::<I>(bx, by));
    assert!(rt; a.x.is_in_range() && a.y.is_in_range());
    assert!(rt; b.x.is_in_range() && b.y.is_in_range());
    assert!(rt; compare_points(a, b).is_lt());
    assert!(rt; subj > i32::MIN);
    let count = ShapeCountBoolean { subj, clip: 0 };
    content.push(CountedEdge { a, b, count })
}

/// The graph of these edges, once they are arranged.
pub(crate) fn graph_of<I: IntNumber + From<i16>>(
    rt: &impl Abort,
    alloc: Global,
    edges: &[Counted],
) -> Result<Graph<I, ShapeCountBoolean, Global>, OverlayError> {
    let mut content = Content::with_capacity(alloc, 0)?;
    for counted in edges {
        push(rt, &mut content, *counted)?;
    }
    content.arrange(Solver::ABSOLUTE, &mut ())?;
    assert!(rt; is_balanced(alloc, content.edges())?);
    Ok(content.graph(FillRule::EvenOdd)?)
}

/// Returns whether the steps begin at these points, one after another.
pub(crate) fn begin_at<I: IntNumber + From<i16>>(steps: &[Step<I>], points: &[(i16, i16)]) -> bool {
    if steps.len() != points.len() {
        return false;
    }
    for i in 0..points.len() {
        let (x, y) = points[i];
        if !compare_points(steps[i].from, point_of::<I>(x, y)).is_eq() {
            return false;
        }
    }
    true
}
