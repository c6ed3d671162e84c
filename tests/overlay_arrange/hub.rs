//! Many edges through one point: each is cut there, and what pairs of them tell again and again is kept once.

use crate::edges::{Held, edge, push};
use overlay_arrange::content::Content;
use overlay_geom::edge_pair::is_same;
use overlay_geom::error::OverlayError;
use overlay_geom::point::IntPoint;
use overlay_geom::solver::Solver;
use std::alloc::Global;
use std::process::Abort;
use std::test::Fail;

// Number of edges through the point. Their pairs give 1,059,870 meetings, and from 1,048,576 on those that repeat are
// dropped.
const COUNT: i32 = 1030;

// The edges from (k, -COUNT) to (-k, COUNT), all of which pass the origin alone, for k from 1 on.
fn edges(rt: &impl Abort, alloc: Global) -> Result<Held<i32>, OverlayError> {
    let mut content = Content::with_capacity(alloc, 0)?;
    for k in 1..COUNT + 1 {
        push(rt, &mut content, edge(-k, COUNT, k, -COUNT, 1))?;
    }
    Ok(content)
}

// Each edge becomes two pieces, which end and begin in the origin.
fn check(rt: &impl Abort, alloc: Global) -> Result<(), OverlayError> {
    let mut content = edges(rt, alloc)?;
    assert!(rt; content.arrange(Solver::SNAPPED, &mut ())?);
    let pieces = content.edges();
    assert!(rt; pieces.len() == 2 * COUNT as usize);
    let origin = IntPoint::new(0, 0);
    for (number, e) in pieces.iter().enumerate() {
        let is_left = number < COUNT as usize;
        assert!(rt; is_same(if is_left { e.b } else { e.a }, origin));
    }
    Ok(())
}

#[test]
fn edges_through_one_point(rt: HostRuntime) -> Result<(), Fail> {
    Ok(check(&rt, rt.alloc())?)
}
