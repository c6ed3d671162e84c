//! Edges that one round cuts: into which pieces.

use crate::edges::{edge, push, with_edges};
use overlay_geom::error::OverlayError;
use overlay_geom::number::IntNumber;
use overlay_order::count::ShapeCountBoolean;
use overlay_order::edge::CountedEdge;
use std::alloc::Global;
use std::process::Abort;

// One round splits the edges into these pieces, merged and in order.
fn check<I: IntNumber + PartialEq>(
    rt: &impl Abort,
    alloc: Global,
    edges: &[CountedEdge<I, ShapeCountBoolean>],
    want: &[CountedEdge<I, ShapeCountBoolean>],
) -> Result<(), OverlayError> {
    let mut content = with_edges(rt, alloc, edges)?;
    assert!(rt; content.split(1, &mut ())?);
    assert!(rt; content.edges() == want);
    Ok(())
}

#[test]
fn three_edges_through_one_half_point(rt: HostRuntime) -> Result<(), OverlayError> {
    // all three meet in (3/2, 3/2)
    let edges = [
        edge(0i32, 0, 3, 3, 1),
        edge(0, 1, 3, 2, 1),
        edge(0, 3, 3, 0, 1),
    ];
    let want = [
        edge(0i32, 0, 2, 2, 1),
        edge(0, 1, 2, 2, 1),
        edge(0, 3, 2, 2, 1),
        edge(2, 2, 3, 0, 1),
        edge(2, 2, 3, 2, 1),
        edge(2, 2, 3, 3, 1),
    ];
    check(&rt, rt.alloc(), &edges, &want)
}

#[test]
fn two_edges_that_overlap(rt: HostRuntime) -> Result<(), OverlayError> {
    let edges = [edge(0i16, 0, 4, 4, 1), edge(2, 2, 6, 6, -3)];
    let want = [
        edge(0i16, 0, 2, 2, 1),
        edge(2, 2, 4, 4, -2),
        edge(4, 4, 6, 6, -3),
    ];
    check(&rt, rt.alloc(), &edges, &want)
}

#[test]
fn three_edges_that_overlap(rt: HostRuntime) -> Result<(), OverlayError> {
    let edges = [
        edge(0i32, 0, 9, 0, 1),
        edge(3, 0, 12, 0, 2),
        edge(6, 0, 15, 0, 4),
    ];
    let want = [
        edge(0i32, 0, 3, 0, 1),
        edge(3, 0, 6, 0, 3),
        edge(6, 0, 9, 0, 7),
        edge(9, 0, 12, 0, 6),
        edge(12, 0, 15, 0, 4),
    ];
    check(&rt, rt.alloc(), &edges, &want)
}

#[test]
fn an_end_on_another_edge(rt: HostRuntime) -> Result<(), OverlayError> {
    let edges = [edge(0i32, 0, 4, 0, 1), edge(2, 0, 2, 3, 1)];
    let want = [
        edge(0i32, 0, 2, 0, 1),
        edge(2, 0, 2, 3, 1),
        edge(2, 0, 4, 0, 1),
    ];
    check(&rt, rt.alloc(), &edges, &want)
}

#[test]
fn pieces_against_a_steep_edge(rt: HostRuntime) -> Result<(), OverlayError> {
    // the edge falls from (0, 10) through (1/4, 5) and (7/20, 3), which are moved to x = 0
    let edges = [
        edge(-1i16, 3, 3, 3, 1),
        edge(-1, 5, 3, 5, 1),
        edge(0, 10, 1, -10, 2),
    ];
    let want = [
        edge(-1i16, 3, 0, 3, 1),
        edge(-1, 5, 0, 5, 1),
        edge(0, 3, 0, 5, -2),
        edge(0, 3, 1, -10, 2),
        edge(0, 3, 3, 3, 1),
        edge(0, 5, 0, 10, -2),
        edge(0, 5, 3, 5, 1),
    ];
    check(&rt, rt.alloc(), &edges, &want)
}

#[test]
fn a_crossing_of_the_longest_edges(rt: HostRuntime) -> Result<(), OverlayError> {
    // with the farthest coordinate m = 3k they meet near (k + 4/9, k - 2/9)
    let (m, k) = (4611686018427387903i64, 1537228672809129301i64);
    let edges = [edge(-m, -m, m, m - 1, 1), edge(-m, m, m, 0, 1)];
    let want = [
        edge(-m, -m, k, k, 1),
        edge(-m, m, k, k, 1),
        edge(k, k, m, 0, 1),
        edge(k, k, m, m - 1, 1),
    ];
    check(&rt, rt.alloc(), &edges, &want)
}

#[test]
fn pieces_that_weigh_too_much(rt: HostRuntime) -> Result<(), OverlayError> {
    // the pieces weigh 2^31 + 1
    let half = 1 << 30;
    let edges = [edge(0i32, 0, 4, 0, half), edge(2, 0, 2, 3, 1)];
    let mut content = with_edges(&rt, rt.alloc(), &edges)?;
    assert!(rt; content.split(1, &mut ()) == Err(OverlayError::TooManyEdges));
    Ok(())
}

#[test]
fn edges_that_weigh_too_much(rt: HostRuntime) -> Result<(), OverlayError> {
    // the edges weigh 2^31
    let half = 1 << 30;
    let edges = [edge(0i32, 0, 4, 0, half - 1), edge(0, 0, 4, 1, -half)];
    let mut content = with_edges(&rt, rt.alloc(), &edges)?;
    let added = push(&rt, &mut content, edge(0, 0, 4, 2, 1));
    assert!(rt; added == Err(OverlayError::TooManyEdges));
    Ok(())
}
