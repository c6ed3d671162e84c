//! Edges that cross, touch and overlap, and what they are cut into.

use crate::edges::{Held, edge, push, with_edges};
use overlay_arrange::content::Content;
use overlay_builder::boolean::passing;
use overlay_builder::path::{PathKind, add_path};
use overlay_geom::error::OverlayError;
use overlay_geom::number::IntNumber;
use overlay_geom::options::ShapeType;
use overlay_geom::point::{IntPoint, in_range};
use overlay_geom::solver::Solver;
use overlay_order::count::ShapeCountBoolean;
use overlay_order::edge::CountedEdge;
use std::alloc::Global;
use std::process::Abort;
use std::test::Fail;

// A content with the steps of a subject.
pub(crate) fn with_subject<I: IntNumber>(
    rt: &impl Abort,
    alloc: Global,
    contour: &[IntPoint<I>],
) -> Result<Held<I>, OverlayError> {
    let mut content = Content::with_capacity(alloc, 0)?;
    assert!(rt; in_range(contour));
    add_path(
        &mut content,
        contour,
        PathKind::Closed,
        passing(ShapeType::Subject),
    )?;
    Ok(content)
}

// The contour from corner to corner of the square between two coordinates.
fn bow_tie<I: Copy>(low: I, high: I) -> [IntPoint<I>; 4] {
    [
        IntPoint::new(low, low),
        IntPoint::new(high, high),
        IntPoint::new(high, low),
        IntPoint::new(low, high),
    ]
}

// The contour from corner to corner of a square, split in at most this number of rounds, with this answer.
fn split_bow_tie(
    rt: &impl Abort,
    alloc: Global,
    rounds: u32,
    wanted: Result<bool, OverlayError>,
) -> Result<Held<i32>, OverlayError> {
    let contour = bow_tie(0i32, 10);
    let mut content = with_subject(rt, alloc, &contour)?;
    assert!(rt; content.split(rounds, &mut ()) == wanted);
    Ok(content)
}

// The content has these edges, and no round is needed, nor changes any.
fn check_settled(
    rt: &impl Abort,
    content: &mut Held<i32>,
    wanted: &[CountedEdge<i32, ShapeCountBoolean>],
) {
    assert!(rt; content.edges() == wanted);
    assert!(rt; content.split(0, &mut ()) == Ok(false));
    assert!(rt; content.edges() == wanted);
}

#[test]
fn a_crossing_is_not_settled_in_no_round(rt: HostRuntime) -> Result<(), Fail> {
    split_bow_tie(&rt, rt.alloc(), 0, Err(OverlayError::NotSettled))?;
    Ok(())
}

#[test]
fn a_crossing_needs_one_round(rt: HostRuntime) -> Result<(), Fail> {
    let mut content = split_bow_tie(&rt, rt.alloc(), 1, Ok(true))?;
    let wanted = [
        edge(0, 0, 0, 10, -1),
        edge(0, 0, 5, 5, 1),
        edge(0, 10, 5, 5, -1),
        edge(5, 5, 10, 0, -1),
        edge(5, 5, 10, 10, 1),
        edge(10, 0, 10, 10, -1),
    ];
    check_settled(&rt, &mut content, &wanted);
    Ok(())
}

// The contour's steps are cut into the edges.
fn check_contour<I: IntNumber + PartialEq>(
    rt: &impl Abort,
    alloc: Global,
    contour: &[IntPoint<I>],
    wanted: &[CountedEdge<I, ShapeCountBoolean>],
) -> Result<(), OverlayError> {
    let mut content = with_subject(rt, alloc, contour)?;
    content.arrange(Solver::Rounds, &mut ())?;
    assert!(rt; content.edges() == wanted);
    Ok(())
}

// The edges of the contour from corner to corner of a square round (0, 0).
fn bow_tie_edges<I: Copy>(low: I, zero: I, high: I) -> [CountedEdge<I, ShapeCountBoolean>; 6] {
    [
        edge(low, low, low, high, -1),
        edge(low, low, zero, zero, 1),
        edge(low, high, zero, zero, -1),
        edge(zero, zero, high, low, -1),
        edge(zero, zero, high, high, 1),
        edge(high, low, high, high, -1),
    ]
}

#[test]
fn a_crossing_from_corner_to_corner(rt: HostRuntime) -> Result<(), Fail> {
    let (low, high) = (-16383i16, 16383);
    check_contour(
        &rt,
        rt.alloc(),
        &bow_tie(low, high),
        &bow_tie_edges(low, 0, high),
    )?;
    let (low, high) = (-1073741823i32, 1073741823);
    check_contour(
        &rt,
        rt.alloc(),
        &bow_tie(low, high),
        &bow_tie_edges(low, 0, high),
    )?;
    let (low, high) = (-4611686018427387903i64, 4611686018427387903);
    check_contour(
        &rt,
        rt.alloc(),
        &bow_tie(low, high),
        &bow_tie_edges(low, 0, high),
    )?;
    Ok(())
}

// The edges are cut into the wanted.
fn check<I: IntNumber + PartialEq>(
    rt: &impl Abort,
    alloc: Global,
    edges: &[CountedEdge<I, ShapeCountBoolean>],
    wanted: &[CountedEdge<I, ShapeCountBoolean>],
) -> Result<(), OverlayError> {
    let mut content = with_edges(rt, alloc, edges)?;
    content.arrange(Solver::Rounds, &mut ())?;
    assert!(rt; content.edges() == wanted);
    Ok(())
}

#[test]
fn three_edges_through_one_half_point(rt: HostRuntime) -> Result<(), Fail> {
    // They meet in (3/2, 3/2), which is rounded to (2, 2).
    let edges = [
        edge(0, 0, 3, 3, 1),
        edge(0, 3, 3, 0, 1),
        edge(1, 0, 2, 3, 1),
    ];
    let wanted = [
        edge(0, 0, 2, 2, 1),
        edge(0, 3, 2, 2, 1),
        edge(1, 0, 2, 2, 1),
        edge(2, 2, 2, 3, 1),
        edge(2, 2, 3, 0, 1),
        edge(2, 2, 3, 3, 1),
    ];
    check(&rt, rt.alloc(), &edges, &wanted)?;
    Ok(())
}

#[test]
fn overlaps_of_collinear_edges(rt: HostRuntime) -> Result<(), Fail> {
    let edges = [edge(0, 0, 4, 0, 1), edge(2, 0, 6, 0, 1)];
    let wanted = [
        edge(0, 0, 2, 0, 1),
        edge(2, 0, 4, 0, 2),
        edge(4, 0, 6, 0, 1),
    ];
    check(&rt, rt.alloc(), &edges, &wanted)?;
    let edges = [
        edge(0, 0, 4, 0, 1),
        edge(2, 0, 6, 0, 1),
        edge(1, 0, 5, 0, 1),
    ];
    let wanted = [
        edge(0, 0, 1, 0, 1),
        edge(1, 0, 2, 0, 2),
        edge(2, 0, 4, 0, 3),
        edge(4, 0, 5, 0, 2),
        edge(5, 0, 6, 0, 1),
    ];
    check(&rt, rt.alloc(), &edges, &wanted)?;
    let edges = [edge(0, 0, 0, 4, 1), edge(0, 2, 0, 6, -1)];
    let wanted = [edge(0, 0, 0, 2, 1), edge(0, 4, 0, 6, -1)];
    check(&rt, rt.alloc(), &edges, &wanted)?;
    Ok(())
}

#[test]
fn an_edge_that_ends_on_another_cuts_it(rt: HostRuntime) -> Result<(), Fail> {
    let edges = [edge(0, 0, 6, 3, 1), edge(4, -5, 4, 2, 1)];
    let wanted = [
        edge(0, 0, 4, 2, 1),
        edge(4, -5, 4, 2, 1),
        edge(4, 2, 6, 3, 1),
    ];
    check(&rt, rt.alloc(), &edges, &wanted)?;
    Ok(())
}

#[test]
fn a_piece_may_run_against_its_edge(rt: HostRuntime) -> Result<(), Fail> {
    // The steep edge is led through (1, 5), where it is crossed at 4/5 and 5: the piece from there down to (1, 0) runs
    // back.
    let edges = [edge(0, 25, 1, 0, 1), edge(0, 5, 7, 5, 1)];
    let wanted = [
        edge(0, 5, 1, 5, 1),
        edge(0, 25, 1, 5, 1),
        edge(1, 0, 1, 5, -1),
        edge(1, 5, 7, 5, 1),
    ];
    check(&rt, rt.alloc(), &edges, &wanted)?;
    Ok(())
}

#[test]
fn a_crossing_whose_quotient_needs_all_bits(rt: HostRuntime) -> Result<(), Fail> {
    // The lines cross near (7/4, -3/4), which is rounded to (2, -1).
    let far = 4611686018427387903i64;
    let edges = [
        edge(-far, -far + 2, far, far - 7, 1),
        edge(-far + 1, far, far - 4, -far + 5, 1),
    ];
    let wanted = [
        edge(-far, -far + 2, 2, -1, 1),
        edge(-far + 1, far, 2, -1, 1),
        edge(2, -1, far - 4, -far + 5, 1),
        edge(2, -1, far, far - 7, 1),
    ];
    check(&rt, rt.alloc(), &edges, &wanted)?;
    Ok(())
}

#[test]
fn the_weight_stays_below_the_limit(rt: HostRuntime) -> Result<(), Fail> {
    let mut content = Content::with_capacity(rt.alloc(), 0)?;
    push(&rt, &mut content, edge(0i32, 0, 1, 0, 2147483646))?;
    push(&rt, &mut content, edge(0, 0, 2, 1, 1))?;
    assert_eq!(rt;
        push(&rt, &mut content, edge(0, 0, 3, 1, 1)),
        Err(OverlayError::TooManyEdges)
    );
    assert_eq!(rt; content.edges().len(), 2);
    Ok(())
}

#[test]
fn a_round_may_weigh_too_much(rt: HostRuntime) -> Result<(), Fail> {
    // Cut into two, the edges weigh twice as much.
    let edges = [edge(0i32, 0, 2, 2, 1073741823), edge(0, 2, 2, 0, 1)];
    let mut content = with_edges(&rt, rt.alloc(), &edges)?;
    assert_eq!(rt;
        content.arrange(Solver::Rounds, &mut ()),
        Err(OverlayError::TooManyEdges)
    );
    Ok(())
}
