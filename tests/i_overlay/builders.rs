//! Calls on builders that promise nothing, or little: tests look at what comes of them.

use i_overlay::fill_rule::FillRule;
use i_overlay::overlay::{IntOverlayOptions, Overlay, ShapeType};
use i_overlay::solver::Solver;
use i_overlay::vector::edge::DataVectorEdge;
use overlay_geom::error::OverlayError;
use overlay_geom::integer::OverlayInt;
use overlay_geom::point::{IntPoint, in_range};
use overlay_geom::resource::IntShapeResource;
use small_points::contours::assert_in_range;
use std::alloc::Allocator;
use std::process::Abort;

/// An empty builder.
pub(crate) fn empty<I: OverlayInt, A: Allocator + Clone>(
    alloc: A,
) -> Result<Overlay<I, A>, OverlayError> {
    Overlay::new(alloc, 0)
}

/// Adds a contour that is in range.
pub(crate) fn add<I: OverlayInt, A: Allocator + Clone>(
    rt: &impl Abort,
    overlay: &mut Overlay<I, A>,
    contour: &[IntPoint<I>],
    shape_type: ShapeType,
) -> Result<(), OverlayError> {
    assert!(rt; in_range(contour));
    overlay.add_contour(contour, shape_type)
}

/// Adds a contour that is in range and whose points come one by one.
pub(crate) fn add_points<I: OverlayInt, A: Allocator + Clone>(
    rt: &impl Abort,
    overlay: &mut Overlay<I, A>,
    points: &[IntPoint<I>],
    shape_type: ShapeType,
) -> Result<(), OverlayError> {
    assert!(rt; in_range(points));
    overlay.add_path_iter(points.iter().copied(), shape_type)
}

/// Adds the paths of a resource, which are in range.
pub(crate) fn add_source<I: OverlayInt, A: Allocator + Clone, R0: IntShapeResource<I>>(
    rt: &impl Abort,
    overlay: &mut Overlay<I, A>,
    resource: &R0,
    shape_type: ShapeType,
) -> Result<(), OverlayError> {
    assert_in_range(rt, resource);
    overlay.add_source(resource, shape_type)
}

/// Puts the paths of a subject in the place of what the builder holds.
pub(crate) fn reinit_with_subj<I: OverlayInt, A: Allocator + Clone, R0: IntShapeResource<I>>(
    rt: &impl Abort,
    overlay: &mut Overlay<I, A>,
    subj: &R0,
) -> Result<(), OverlayError> {
    assert_in_range(rt, subj);
    overlay.reinit_with_subj(subj)
}

/// Puts the paths of a subject and a clip in the place of what the builder holds.
pub(crate) fn reinit_with_subj_and_clip<
    I: OverlayInt,
    A: Allocator + Clone,
    R0: IntShapeResource<I>,
    R1: IntShapeResource<I>,
>(rt: &impl Abort, overlay: &mut Overlay<I, A>, subj: &R0, clip: &R1) -> Result<(), OverlayError> {
    assert_in_range(rt, subj);
    assert_in_range(rt, clip);
    overlay.reinit_with_subj_and_clip(subj, clip)
}

/// A builder with the paths of a subject.
pub(crate) fn from_subj<I: OverlayInt, A: Allocator + Clone, R0: IntShapeResource<I>>(
    rt: &impl Abort,
    alloc: A,
    subj: &R0,
) -> Result<Overlay<I, A>, OverlayError> {
    assert_in_range(rt, subj);
    Overlay::from_subj(alloc, subj)
}

/// Makes that builder with all points kept.
pub(crate) fn from_subj_custom<I: OverlayInt, A: Allocator + Clone, R0: IntShapeResource<I>>(
    rt: &impl Abort,
    alloc: A,
    subj: &R0,
) -> Result<Overlay<I, A>, OverlayError> {
    assert_in_range(rt, subj);
    let options = IntOverlayOptions::keep_all_points();
    Overlay::from_subj_custom(alloc, subj, options, Solver::ABSOLUTE)
}

/// A builder with the paths of a subject and a clip.
pub(crate) fn from_subj_and_clip<
    I: OverlayInt,
    A: Allocator + Clone,
    R0: IntShapeResource<I>,
    R1: IntShapeResource<I>,
>(rt: &impl Abort, alloc: A, subj: &R0, clip: &R1) -> Result<Overlay<I, A>, OverlayError> {
    assert_in_range(rt, subj);
    assert_in_range(rt, clip);
    Overlay::from_subj_and_clip(alloc, subj, clip)
}

/// Makes that builder with all points kept.
pub(crate) fn from_subj_and_clip_custom<
    I: OverlayInt,
    A: Allocator + Clone,
    R0: IntShapeResource<I>,
    R1: IntShapeResource<I>,
>(rt: &impl Abort, alloc: A, subj: &R0, clip: &R1) -> Result<Overlay<I, A>, OverlayError> {
    assert_in_range(rt, subj);
    assert_in_range(rt, clip);
    let options = IntOverlayOptions::keep_all_points();
    Overlay::from_subj_and_clip_custom(alloc, subj, clip, options, Solver::ABSOLUTE)
}

/// The edges of the builder.
pub(crate) fn edges<I: OverlayInt, A: Allocator + Clone>(
    overlay: &mut Overlay<I, A>,
    rule: FillRule,
) -> Result<Vec<DataVectorEdge<I, ()>, A>, OverlayError> {
    overlay.build_separate_vectors(rule)
}

/// Number of edges of the builder.
pub(crate) fn edge_count<I: OverlayInt, A: Allocator + Clone>(
    overlay: &mut Overlay<I, A>,
    rule: FillRule,
) -> Result<usize, OverlayError> {
    let edges = edges(overlay, rule)?;
    Ok(edges.len())
}

/// Checks the fills of the builder's edges, in order.
pub(crate) fn check_fills<I: OverlayInt, A: Allocator + Clone>(
    rt: &impl Abort,
    overlay: &mut Overlay<I, A>,
    rule: FillRule,
    fills: &[u8],
) {
    let edges = edges(overlay, rule).expect(rt, "the edges are given");
    assert!(rt; have_fills(&edges, fills));
}

// Returns whether the edges have these fills, in order.
fn have_fills<I>(edges: &[DataVectorEdge<I, ()>], fills: &[u8]) -> bool {
    if edges.len() != fills.len() {
        return false;
    }
    for (edge, fill) in edges.iter().zip(fills) {
        if edge.fill != *fill {
            return false;
        }
    }
    true
}

/// An edge with its fill.
pub(crate) fn edge<I>(a: IntPoint<I>, b: IntPoint<I>, fill: u8) -> DataVectorEdge<I, ()> {
    DataVectorEdge {
        a,
        b,
        fill,
        edge_data: (),
    }
}

/// Tests whether the builder has these edges, in order.
pub(crate) fn has_edges<I: OverlayInt + PartialEq, A: Allocator + Clone>(
    overlay: &mut Overlay<I, A>,
    rule: FillRule,
    wanted: &[DataVectorEdge<I, ()>],
) -> Result<bool, OverlayError> {
    let edges = edges(overlay, rule)?;
    Ok(&edges[..] == wanted)
}

/// Checks the edges of the builder, in order.
pub(crate) fn check_edges<I: OverlayInt + PartialEq, A: Allocator + Clone>(
    rt: &impl Abort,
    overlay: &mut Overlay<I, A>,
    rule: FillRule,
    wanted: &[DataVectorEdge<I, ()>],
) {
    assert!(rt; has_edges(overlay, rule, wanted) == Ok(true));
}

/// Checks that a call was answered.
pub(crate) fn check_answered(rt: &impl Abort, answer: Result<(), OverlayError>) {
    assert_eq!(rt; answer, Ok(()));
}

/// Returns whether a call was refused so.
pub(crate) fn is_refused(answer: Result<(), OverlayError>, error: OverlayError) -> bool {
    match answer {
        Ok(()) => false,
        Err(e) => e == error,
    }
}
