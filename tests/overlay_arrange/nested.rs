//! Nested edges on one line, which are parted at each other's ends before they are cut. Edges with data are not parted:
//! their equal pieces are joined in batches.

use crate::edges::{Held, edge, push};
use overlay_arrange::content::Content;
use overlay_geom::error::OverlayError;
use overlay_geom::solver::Solver;
use overlay_order::count::ShapeCountBoolean;
use overlay_order::edge::CountedEdge;
use refusing_alloc::refusing::Refusing;
use std::alloc::{Allocator, Global};
use std::process::Abort;
use std::test::Fail;

/// More requests than a call makes.
const PLENTY: u64 = 10000;

// Number of edges on the line. They have 90,000 pieces where they are not parted, and 599 parts. A snap joins equal
// pieces from 65,536 on.
const COUNT: i32 = 300;

// The edge from (-k, 0) to (k, 0), for each k from 1 on.
fn nested(rt: &impl Abort, alloc: Global) -> Result<Held<i32>, OverlayError> {
    let mut content = Content::with_capacity(alloc, 0)?;
    for k in 1..COUNT + 1 {
        push(rt, &mut content, edge(-k, 0, k, 0, 1))?;
    }
    Ok(content)
}

// The piece on the line at place i: the edges from (-k, 0) to (k, 0) have it where k is large enough.
fn piece_at(i: i32) -> CountedEdge<i32, ShapeCountBoolean> {
    if i < COUNT - 1 {
        edge(i - COUNT, 0, i - COUNT + 1, 0, i + 1)
    } else if i == COUNT - 1 {
        edge(-1, 0, 1, 0, COUNT)
    } else {
        edge(i - COUNT + 1, 0, i - COUNT + 2, 0, 2 * COUNT - 1 - i)
    }
}

// The pieces on the line come first.
fn begin_with_pieces(rt: &impl Abort, edges: &[CountedEdge<i32, ShapeCountBoolean>]) {
    assert!(rt; edges.len() >= 2 * COUNT as usize - 1);
    for i in 0..2 * COUNT - 1 {
        assert!(rt; edges[i as usize] == piece_at(i));
    }
}

#[test]
fn edges_on_one_line(rt: HostRuntime) -> Result<(), Fail> {
    for solver in [Solver::Rounds, Solver::Snapping] {
        let mut content = nested(&rt, rt.alloc())?;
        assert!(rt; content.arrange(solver, &mut ())?);
        assert!(rt; content.len() == 2 * COUNT as usize - 1);
        begin_with_pieces(&rt, content.edges());
    }
    Ok(())
}

#[test]
fn edges_on_one_line_beside_a_point_that_is_rounded(rt: HostRuntime) -> Result<(), Fail> {
    // (three edges meet in (1001.5, 1.5), which is rounded to (1002, 2))
    let wanted = [
        edge(1000, 0, 1002, 2, 1),
        edge(1000, 1, 1002, 2, 1),
        edge(1000, 3, 1002, 2, 1),
        edge(1002, 2, 1003, 0, 1),
        edge(1002, 2, 1003, 2, 1),
        edge(1002, 2, 1003, 3, 1),
    ];
    for solver in [Solver::Rounds, Solver::Snapping] {
        let mut content = nested(&rt, rt.alloc())?;
        push(&rt, &mut content, edge(1000, 0, 1003, 3, 1))?;
        push(&rt, &mut content, edge(1000, 1, 1003, 2, 1))?;
        push(&rt, &mut content, edge(1000, 3, 1003, 0, 1))?;
        assert!(rt; content.arrange(solver, &mut ())?);
        begin_with_pieces(&rt, content.edges());
        let rest = &content.edges()[2 * COUNT as usize - 1..];
        assert!(rt; rest == wanted.as_slice());
    }
    Ok(())
}

// The edges, every second one turned round, and three through a point that is rounded, in memory that may be refused.
fn nested_in<A: Allocator>(alloc: A) -> Result<Content<i32, ShapeCountBoolean, A>, OverlayError> {
    let mut content = Content::with_capacity(alloc, 0)?;
    for k in 1..COUNT + 1 {
        content.push(edge(-k, 0, k, 0, if k % 2 == 0 { 1 } else { -1 }))?;
    }
    content.push(edge(1000, 0, 1003, 3, 1))?;
    content.push(edge(1000, 1, 1003, 2, 1))?;
    content.push(edge(1000, 3, 1003, 0, 1))?;
    Ok(content)
}

#[test]
fn each_growth_is_refused(rt: HostRuntime) -> Result<(), Fail> {
    let memory = Refusing::new(rt.alloc(), PLENTY);
    for granted in 0..PLENTY {
        memory.grant(PLENTY);
        let mut content = nested_in(&memory)?;
        memory.grant(granted);
        let answer = content.arrange(Solver::Snapping, &mut ());
        assert!(rt; memory.left() == 0);
        if answer == Ok(true) {
            // (an even number of edges leaves no counts)
            assert!(rt; granted > 0 && content.len() == COUNT as usize + 6);
            return Ok(());
        }
        assert!(rt; answer == Err(OverlayError::Memory), "after {granted}");
    }
    assert!(rt; false, "it takes more requests");
    Ok(())
}
