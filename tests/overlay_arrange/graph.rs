//! Graphs: the edges of an arrangement with what they carry and their filled sides.

use crate::edges::{Held, edge, with_edges};
use overlay_arrange::content::Content;
use overlay_geom::error::OverlayError;
use overlay_geom::fill_rule::FillRule;
use overlay_geom::number::IntNumber;
use overlay_geom::point::IntPoint;
use overlay_geom::solver::Solver;
use overlay_graph::graph::Graph;
use overlay_order::count::ShapeCountBoolean;
use overlay_order::edge::compare_points;
use overlay_order::vector::{DataVectorEdge, SUBJ_LEFT, SUBJ_RIGHT, SideFill};
use std::alloc::Global;
use std::process::Abort;
use std::test::Fail;

type Found<I> = Graph<I, ShapeCountBoolean, Global>;

// An arranged square with side `two` at the origin, which the subject winds round `often` times. It also runs along its
// lower edge back and forth, which leaves nothing.
fn square<I: IntNumber>(
    rt: &impl Abort,
    alloc: Global,
    zero: I,
    two: I,
    often: i32,
) -> Result<Held<I>, OverlayError> {
    assert!(rt; often > -1000 && often < 1000);
    let edges = [
        edge(zero, zero, two, zero, often),
        edge(two, zero, two, two, often),
        edge(zero, two, two, two, -often),
        edge(zero, zero, zero, two, -often),
        edge(zero, zero, two, zero, 1),
        edge(zero, zero, two, zero, -1),
    ];
    let mut content = with_edges(rt, alloc, &edges)?;
    content.arrange(Solver::Rounds, &mut ())?;
    Ok(content)
}

// An edge with these filled sides, which the subject passes so often.
fn check_edge<I: IntNumber>(
    rt: &impl Abort,
    found: DataVectorEdge<I, ShapeCountBoolean>,
    listed: DataVectorEdge<I, ()>,
    ends: [IntPoint<I>; 2],
    told: (i32, SideFill),
) {
    let [a, b] = ends;
    let (subj, fill) = told;
    let count = found.edge_data;
    assert!(rt; compare_points(found.a, a).is_eq() && compare_points(found.b, b).is_eq());
    assert!(rt; compare_points(listed.a, a).is_eq() && compare_points(listed.b, b).is_eq());
    assert!(rt; count.subj == subj && count.clip == 0);
    assert!(rt; found.fill == fill && listed.fill == fill);
}

// The edges of the square in order.
fn check_square<I: IntNumber>(
    rt: &impl Abort,
    graph: &Found<I>,
    zero: I,
    two: I,
    left: (i32, SideFill),
    right: (i32, SideFill),
) -> Result<(), OverlayError> {
    let (low, high) = (IntPoint::new(zero, zero), IntPoint::new(two, two));
    let (above, beside) = (IntPoint::new(zero, two), IntPoint::new(two, zero));
    let vectors = graph.separate_vectors()?;
    let edges = graph.edges();
    assert!(rt; edges.len() == 4);
    assert!(rt; vectors.len() == 4);
    check_edge(rt, edges[0], vectors[0], [low, above], right);
    check_edge(rt, edges[1], vectors[1], [low, beside], left);
    check_edge(rt, edges[2], vectors[2], [above, high], right);
    check_edge(rt, edges[3], vectors[3], [beside, high], left);
    Ok(())
}

// Twice round a square: NonZero fills it, EvenOdd does not.
fn check_rules<I: IntNumber>(
    rt: &impl Abort,
    alloc: Global,
    zero: I,
    two: I,
) -> Result<(), OverlayError> {
    let held = square(rt, alloc, zero, two, 2)?;
    let filled = [
        held.graph(FillRule::NonZero)?,
        held.graph_of_balanced(FillRule::NonZero)?,
    ];
    let empty = [
        held.graph(FillRule::EvenOdd)?,
        held.graph_of_balanced(FillRule::EvenOdd)?,
    ];
    for k in 0..2 {
        check_square(rt, &filled[k], zero, two, (2, SUBJ_LEFT), (-2, SUBJ_RIGHT))?;
        check_square(rt, &empty[k], zero, two, (2, 0), (-2, 0))?;
    }
    Ok(())
}

#[test]
fn a_square_twice(rt: HostRuntime) -> Result<(), Fail> {
    check_rules(&rt, rt.alloc(), 0i16, 2)?;
    check_rules(&rt, rt.alloc(), 0i32, 2)?;
    check_rules(&rt, rt.alloc(), 0i64, 2)?;
    Ok(())
}

#[test]
fn no_edges(rt: HostRuntime) -> Result<(), Fail> {
    let mut content: Content<i32, ShapeCountBoolean, Global> = Content::with_capacity(
        rt.alloc(),
        0,
    )?;
    content.arrange(Solver::Rounds, &mut ())?;
    let graph = content.graph(FillRule::NonZero)?;
    assert!(rt; graph.edges().is_empty());
    Ok(())
}
