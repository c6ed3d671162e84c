//! Many long edges beside each other, with short edges at their starts, which are found by bundles: a line over the
//! long edges is cut by each, and cuts each.

use crate::edges::{Held, edge, push};
use overlay_arrange::content::Content;
use overlay_geom::error::OverlayError;
use overlay_geom::solver::Solver;
use std::alloc::Global;
use std::process::Abort;
use std::test::Fail;

// Number of edges beside each other. From 480 on bundles may be made.
const COUNT: i32 = 5000;

// The edges from (0, 4k) to (0, 4k + 1) and to (20, 4k + 4000), and one from (10, 0) to (10, 4 COUNT + 4000), which
// meets each of the long edges in the middle.
fn edges(rt: &impl Abort, alloc: Global) -> Result<Held<i32>, OverlayError> {
    let mut content = Content::with_capacity(alloc, 0)?;
    for k in 0..COUNT {
        push(rt, &mut content, edge(0, 4 * k, 0, 4 * k + 1, 1))?;
        push(rt, &mut content, edge(0, 4 * k, 20, 4 * k + 4000, 1))?;
    }
    push(rt, &mut content, edge(10, 0, 10, 4 * COUNT + 4000, 1))?;
    Ok(content)
}

// Each long edge becomes two pieces, and the line over them one more than there are long edges. Then all meet in ends
// alone.
fn check(rt: &impl Abort, alloc: Global, solver: Solver) -> Result<(), OverlayError> {
    let mut content = edges(rt, alloc)?;
    assert!(rt; content.arrange(solver, &mut ())?);
    let count = COUNT as usize;
    assert!(rt; content.edges().len() == count + 2 * count + count + 1);
    assert!(rt; !content.arrange(solver, &mut ())?);
    Ok(())
}

#[test]
fn edges_beside_each_other(rt: HostRuntime) -> Result<(), Fail> {
    check(&rt, rt.alloc(), Solver::ABSOLUTE)?;
    Ok(check(&rt, rt.alloc(), Solver::SNAPPED)?)
}
