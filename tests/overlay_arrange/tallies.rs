//! Data that counts what is done to it, through cutting and merging.

ghost use Rattle.std.specs.Prelude.{⊤};

use overlay_arrange::content::Content;
use overlay_geom::error::OverlayError;
use overlay_geom::number::IntNumber;
use overlay_geom::point::IntPoint;
use overlay_geom::solver::Solver;
use overlay_order::count::ShapeCountBoolean;
use overlay_order::data::{CountWithData, EdgeDataMerge, OverlayEdgeData};
use overlay_order::edge::{CountedEdge, compare_points};
use refusing_alloc::refusing::Refusing;
use std::alloc::{Allocator, Global};
use std::process::Abort;
use std::test::Fail;

/// More requests than a call makes.
const PLENTY: u64 = 10000;

// Numbers of splits, reversals and merges of data; in a store, numbers of calls.
#[derive(Debug, Clone, Copy, PartialEq, Default)]
struct Tally {
    splits: u32,
    reversals: u32,
    merges: u32,
}

impl Tally {
    fn of(splits: u32, reversals: u32, merges: u32) -> Tally {
        Tally {
            splits,
            reversals,
            merges,
        }
    }

    fn plus(self, other: Tally) -> Tally {
        Tally {
            splits: self.splits.saturating_add(other.splits),
            reversals: self.reversals.saturating_add(other.reversals),
            merges: self.merges.saturating_add(other.merges),
        }
    }
}

impl OverlayEdgeData for Tally {
    type Store = Tally;

    ghost merges = { λ _ _ _ _ _. ⊤ };

    fn merge(merge: EdgeDataMerge<ShapeCountBoolean, Tally>, store: &mut Tally) -> Tally {
        let one = Tally::of(0, 0, 1);
        *store = store.plus(one);
        merge.lhs_data.plus(merge.rhs_data).plus(one)
    }

    fn split(self, store: &mut Tally) -> Tally {
        let one = Tally::of(1, 0, 0);
        *store = store.plus(one);
        self.plus(one)
    }

    fn reversed(self, store: &mut Tally) -> Tally {
        let one = Tally::of(0, 1, 0);
        *store = store.plus(one);
        self.plus(one)
    }
}

// An edge by its two ends, and what its data tallies.
#[derive(Clone, Copy)]
struct EdgeTally {
    ends: [i32; 4],
    tally: Tally,
}

// An edge with these ends and this tally.
fn tallied(ends: [i32; 4], splits: u32, reversals: u32, merges: u32) -> EdgeTally {
    EdgeTally {
        ends,
        tally: Tally::of(splits, reversals, merges),
    }
}

// Adds an edge that the subject passes once, with data that tallies nothing.
fn push<I: IntNumber, A: Allocator + Clone>(
    rt: &impl Abort,
    content: &mut Content<I, CountWithData<Tally>, A>,
    a: IntPoint<I>,
    b: IntPoint<I>,
) -> Result<(), OverlayError> {
    assert!(rt; a.x.is_in_range());
    assert!(rt; a.y.is_in_range());
    assert!(rt; b.x.is_in_range());
    assert!(rt; b.y.is_in_range());
    assert!(rt; compare_points(a, b).is_lt());
    let count = CountWithData {
        count: ShapeCountBoolean { subj: 1, clip: 0 },
        edge_data: Tally::of(0, 0, 0),
    };
    content.push(CountedEdge { a, b, count })
}

// The edges are arranged to the wanted edges, with these numbers of calls.
fn check(
    rt: &impl Abort,
    alloc: Global,
    edges: &[[i32; 4]],
    wanted: &[EdgeTally],
    wanted_calls: Tally,
) -> Result<(), OverlayError> {
    let mut content = Content::with_capacity(alloc, 0)?;
    for ends in edges {
        let a = IntPoint::new(ends[0], ends[1]);
        let b = IntPoint::new(ends[2], ends[3]);
        push(rt, &mut content, a, b)?;
    }
    let mut calls = Tally::default();
    content.arrange(Solver::Rounds, &mut calls)?;
    assert!(rt; calls == wanted_calls);
    assert!(rt; content.edges().len() == wanted.len());
    for (edge, want) in content.edges().iter().zip(wanted) {
        assert!(rt; [edge.a.x, edge.a.y, edge.b.x, edge.b.y] == want.ends);
        assert!(rt; edge.count.edge_data == want.tally);
    }
    Ok(())
}

#[test]
fn a_cut_edge_is_split_for_each_piece_and_one_that_shares_an_end_is_not(
    rt: HostRuntime,
) -> Result<(), Fail> {
    let edges = [[0, 0, 4, 4], [0, 4, 4, 0], [4, 4, 6, 4]];
    let wanted = [
        tallied([0, 0, 2, 2], 1, 0, 0),
        tallied([0, 4, 2, 2], 1, 0, 0),
        tallied([2, 2, 4, 0], 1, 0, 0),
        tallied([2, 2, 4, 4], 1, 0, 0),
        tallied([4, 4, 6, 4], 0, 0, 0),
    ];
    check(&rt, rt.alloc(), &edges, &wanted, Tally::of(4, 0, 0))?;
    Ok(())
}

#[test]
fn a_piece_against_its_edge_is_split_and_reversed(rt: HostRuntime) -> Result<(), Fail> {
    // The steep edge is led through (1, 5), and from there down to (1, 0) against its direction.
    let edges = [[0, 25, 1, 0], [0, 5, 7, 5]];
    let wanted = [
        tallied([0, 5, 1, 5], 1, 0, 0),
        tallied([0, 25, 1, 5], 1, 0, 0),
        tallied([1, 0, 1, 5], 1, 1, 0),
        tallied([1, 5, 7, 5], 1, 0, 0),
    ];
    check(&rt, rt.alloc(), &edges, &wanted, Tally::of(4, 1, 0))?;
    Ok(())
}

#[test]
fn three_equal_edges_are_merged_two_by_two(rt: HostRuntime) -> Result<(), Fail> {
    let edges = [[0, 0, 2, 0], [0, 0, 2, 0], [0, 0, 2, 0]];
    let wanted = [tallied([0, 0, 2, 0], 0, 0, 2)];
    check(&rt, rt.alloc(), &edges, &wanted, Tally::of(0, 0, 2))?;
    Ok(())
}

// The edges from (-k, 0) to (k, 0), for k from 1 to 260, and three that meet in a point that is rounded. All but the
// first are cut: the nested edges into 67,600 pieces with it, the others into six.
fn nested<A: Allocator + Clone>(
    rt: &impl Abort,
    alloc: A,
) -> Result<Content<i32, CountWithData<Tally>, A>, OverlayError> {
    let mut content = Content::with_capacity(alloc, 0)?;
    for k in 1..261i32 {
        push(rt, &mut content, IntPoint::new(-k, 0), IntPoint::new(k, 0))?;
    }
    for (from, to) in [(0, 3), (1, 2), (3, 0)] {
        push(
            rt,
            &mut content,
            IntPoint::new(1000, from),
            IntPoint::new(1003, to),
        )?;
    }
    Ok(content)
}

#[test]
fn pieces_that_are_joined_in_batches_keep_all_data(rt: HostRuntime) -> Result<(), Fail> {
    let mut content = nested(&rt, rt.alloc())?;
    let mut calls = Tally::default();
    content.arrange(Solver::Snapping, &mut calls)?;
    assert!(rt; calls == Tally::of(67_605, 0, 67_081));
    assert!(rt; content.edges().len() == 525);
    for edge in &content.edges()[..519] {
        // (the edges that have this piece)
        let have = 261 - edge.a.x.max(-edge.a.x).max(edge.b.x) as u32;
        let uncut = if have == 260 { 1 } else { 0 };
        assert!(rt; edge.count.edge_data == Tally::of(have - uncut, 0, have - 1));
    }
    Ok(())
}

#[test]
fn each_growth_of_batches_is_refused(rt: HostRuntime) -> Result<(), Fail> {
    let memory = Refusing::new(rt.alloc(), PLENTY);
    for granted in 0..PLENTY {
        memory.grant(PLENTY);
        let mut content = nested(&rt, &memory)?;
        memory.grant(granted);
        let answer = content.arrange(Solver::Snapping, &mut Tally::default());
        assert!(rt; memory.left() == 0);
        if answer == Ok(true) {
            assert!(rt; granted > 0 && content.len() == 525);
            return Ok(());
        }
        assert!(rt; answer == Err(OverlayError::Memory), "after {granted}");
    }
    assert!(rt; false, "it takes more requests");
    Ok(())
}
