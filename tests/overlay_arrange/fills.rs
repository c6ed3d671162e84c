//! The filled sides of edges, also with live edges in trees alone and in lists alone.

use crate::edges::{Held, edge, with_edges};
use overlay_geom::error::OverlayError;
use overlay_geom::fill_rule::FillRule;
use overlay_geom::number::IntNumber;
use overlay_geom::solver::Solver;
use overlay_graph::fill::{fills, fills_of_balanced};
use overlay_graph::fill_sweep::fills_by_sweep;
use overlay_order::vector::{SUBJ_LEFT, SUBJ_RIGHT, SideFill};
use overlay_scan::list::ScanList;
use overlay_scan::tree::ScanTree;
use std::alloc::Global;
use std::process::Abort;
use std::test::Fail;

// Tests whether the edges of an arrangement have these filled sides, in order. Balanced edges must have them also by
// the call that does not test the balance, by trees alone and by lists alone.
fn check<I: IntNumber>(
    rt: &impl Abort,
    alloc: Global,
    mut content: Held<I>,
    is_balanced: bool,
    wanted: &[SideFill],
) -> Result<(), OverlayError> {
    content.arrange(Solver::Rounds, &mut ())?;
    let (edges, rule) = (content.edges(), FillRule::NonZero);
    assert!(rt; &fills(alloc, edges, rule)?[..] == wanted);
    if is_balanced {
        assert!(rt; &fills_of_balanced(alloc, edges, rule)?[..] == wanted);
        let by_trees = fills_by_sweep(alloc, &mut ScanTree::default(alloc), edges, rule)?;
        let by_lists = fills_by_sweep(alloc, &mut ScanList::default(alloc), edges, rule)?;
        assert!(rt; &by_trees[..] == wanted && &by_lists[..] == wanted);
    }
    Ok(())
}

// Two turns round a square, whose inner sides are filled; and a single edge, with counts that are not balanced and with
// a filled left side.
fn rows<I: IntNumber>(
    rt: &impl Abort,
    alloc: Global,
    zero: I,
    one: I,
    two: I,
) -> Result<(), OverlayError> {
    let square = [
        edge(zero, zero, two, zero, 2),
        edge(two, zero, two, two, 2),
        edge(zero, two, two, two, -2),
        edge(zero, zero, zero, two, -2),
    ];
    let held = with_edges(rt, alloc, &square)?;
    check(
        rt,
        alloc,
        held,
        true,
        &[SUBJ_RIGHT, SUBJ_LEFT, SUBJ_RIGHT, SUBJ_LEFT],
    )?;
    let alone = with_edges(rt, alloc, &[edge(zero, zero, two, one, 1)])?;
    check(rt, alloc, alone, false, &[SUBJ_LEFT])
}

#[test]
fn fills_of_either_kind(rt: HostRuntime) -> Result<(), Fail> {
    rows(&rt, rt.alloc(), 0i16, 1, 2)?;
    rows(&rt, rt.alloc(), 0i32, 1, 2)?;
    rows(&rt, rt.alloc(), 0i64, 1, 2)?;
    Ok(())
}
