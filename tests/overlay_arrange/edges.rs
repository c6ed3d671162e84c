//! Edges and contents as the tests here make them.

use overlay_arrange::content::Content;
use overlay_geom::error::OverlayError;
use overlay_geom::number::IntNumber;
use overlay_geom::point::IntPoint;
use overlay_order::count::ShapeCountBoolean;
use overlay_order::edge::{CountedEdge, compare_points};
use std::alloc::Global;
use std::process::Abort;

/// Edges that a subject and a clip pass.
pub(crate) type Held<I> = Content<I, ShapeCountBoolean, Global>;

/// An edge that the subject passes so often.
pub(crate) fn edge<I>(ax: I, ay: I, bx: I, by: I, subj: i32) -> CountedEdge<I, ShapeCountBoolean> {
    CountedEdge {
        a: IntPoint::new(ax, ay),
        b: IntPoint::new(bx, by),
        count: ShapeCountBoolean { subj, clip: 0 },
    }
}

/// Adds an edge, which leads from its smaller to its larger end in the coordinate range.
pub(crate) fn push<I: IntNumber>(
    rt: &impl Abort,
    content: &mut Held<I>,
    edge: CountedEdge<I, ShapeCountBoolean>,
) -> Result<(), OverlayError> {
    let (a, b, count) = (edge.a, edge.b, edge.count);
    assert!(rt; a.x.is_in_range());
    assert!(rt; a.y.is_in_range());
    assert!(rt; b.x.is_in_range());
    assert!(rt; b.y.is_in_range());
    assert!(rt; compare_points(a, b).is_lt());
    assert!(rt; count.clip == 0);
    assert!(rt; count.subj > i32::MIN);
    content.push(edge)
}

/// A content with these edges.
pub(crate) fn with_edges<I: IntNumber>(
    rt: &impl Abort,
    alloc: Global,
    edges: &[CountedEdge<I, ShapeCountBoolean>],
) -> Result<Held<I>, OverlayError> {
    let mut content = Content::with_capacity(alloc, 0)?;
    for edge in edges {
        push(rt, &mut content, *edge)?;
    }
    Ok(content)
}
