//! Edges that share a corner, in bundles: of those with other directions few are found. An edge along one of them, or
//! through the corner, is found.

use overlay_geom::point::IntPoint;
use overlay_order::count::ShapeCountBoolean;
use overlay_order::edge::CountedEdge;
use overlay_pairs::changed::find_open;
use overlay_pairs::strips::strips_of;
use std::alloc::{AllocError, Allocator, Global};
use std::process::Abort;
use std::test::Fail;

// Number of edges on each side of the corner. From 480 edges on bundles may be made.
const COUNT: i32 = 300;

// Greatest number of edges that are found where edges meet in the corner alone: those of some least bundles.
const FEW: usize = 64;

type Edges<A> = Vec<CountedEdge<i32, ShapeCountBoolean>, A>;

// Adds the edge from (ax, ay) to (bx, by).
fn push<A: Allocator>(
    edges: &mut Edges<A>,
    ax: i32,
    ay: i32,
    bx: i32,
    by: i32,
) -> Result<(), AllocError> {
    edges.push(CountedEdge {
        a: IntPoint::new(ax, ay),
        b: IntPoint::new(bx, by),
        count: ShapeCountBoolean { subj: 1, clip: 0 },
    })?;
    Ok(())
}

// The height of the far end of the edge number k, at a distance of 1000 from the corner.
fn height(k: i32) -> i32 {
    2 * (3 * k - 450) + 1
}

// Adds the edges that end in the corner (0, 0).
fn push_ends<A: Allocator>(edges: &mut Edges<A>) -> Result<(), AllocError> {
    for k in 0..COUNT {
        push(edges, -1000, height(k), 0, 0)?;
    }
    Ok(())
}

// Adds the edges that start there.
fn push_starts<A: Allocator>(edges: &mut Edges<A>) -> Result<(), AllocError> {
    for k in 0..COUNT {
        push(edges, 0, 0, 1000, height(k))?;
    }
    Ok(())
}

// Whether `later` is found as a later edge that the edge at place i may meet, and how many are found.
fn found(
    alloc: Global,
    edges: &Edges<Global>,
    i: usize,
    later: usize,
) -> Result<(bool, usize), AllocError> {
    let strips = strips_of(alloc, edges)?;
    let mut near = Vec::new(alloc);
    find_open(&mut near, edges, &strips, &None, i)?;
    Ok((near.contains(&later), near.len()))
}

// Edges that start in the corner and edges that end there have directions in one range.
#[test]
fn edges_with_other_directions(rt: HostRuntime) -> Result<(), Fail> {
    let alloc = rt.alloc();
    let mut edges = Vec::new(alloc);
    push_ends(&mut edges)?;
    push_starts(&mut edges)?;
    for i in [0, 1, 149, 150, 299, 300, 301, 450] {
        let (_, count) = found(alloc, &edges, i, 0)?;
        assert!(rt; count < FEW);
    }
    Ok(())
}

// The edge from (0, 0) to (2000, 2 height(7)) lies along that to (1000, height(7)), at place COUNT + 7.
#[test]
fn an_edge_along_another(rt: HostRuntime) -> Result<(), Fail> {
    let alloc = rt.alloc();
    let mut edges = Vec::new(alloc);
    push_ends(&mut edges)?;
    push_starts(&mut edges)?;
    push(&mut edges, 0, 0, 2000, 2 * height(7))?;
    let (is_found, count) = found(alloc, &edges, 307, 600)?;
    assert!(rt; is_found);
    assert!(rt; count < FEW);
    Ok(())
}

// The edge from (-1, -1000) to (1, 1000) has the corner inside. So it is found by each edge that ends there, and finds
// each that starts there.
#[test]
fn an_edge_through_the_corner(rt: HostRuntime) -> Result<(), Fail> {
    let alloc = rt.alloc();
    let mut edges = Vec::new(alloc);
    push_ends(&mut edges)?;
    push(&mut edges, -1, -1000, 1, 1000)?;
    push_starts(&mut edges)?;
    for i in [0, 1, 149, 150, 299] {
        let (is_found, count) = found(alloc, &edges, i, 300)?;
        assert!(rt; is_found);
        assert!(rt; count < FEW);
    }
    for later in [301, 302, 450, 599, 600] {
        let (is_found, count) = found(alloc, &edges, 300, later)?;
        assert!(rt; is_found);
        assert!(rt; count == COUNT as usize);
    }
    Ok(())
}
