//! Edges that snap rounding leads through hot points, once, and what it leaves.

use crate::edges::{Held, edge, with_edges};
use overlay_arrange::content::Content;
use overlay_geom::error::OverlayError;
use overlay_geom::number::IntNumber;
use overlay_geom::solver::Solver;
use overlay_order::count::ShapeCountBoolean;
use overlay_order::edge::CountedEdge;
use overlay_pairs::settle::is_settled;
use refusing_alloc::refusing::Refusing;
use std::alloc::{Allocator, Global};
use std::process::Abort;
use std::test::Fail;

/// More requests than a call makes.
const PLENTY: u64 = 10000;

type Edge<I> = CountedEdge<I, ShapeCountBoolean>;

// The edges, arranged by the solver, which has to cut some.
fn arranged<I: IntNumber>(
    rt: &impl Abort,
    alloc: Global,
    solver: Solver,
    edges: &[Edge<I>],
) -> Result<Held<I>, OverlayError> {
    let mut content = with_edges(rt, alloc, edges)?;
    assert!(rt; content.arrange(solver, &mut ())?);
    assert!(rt; is_settled(alloc, content.edges())?);
    Ok(content)
}

// The edges are snapped to the wanted, and these stay as they are.
fn check_snapped<I: IntNumber + PartialEq>(
    rt: &impl Abort,
    alloc: Global,
    edges: &[Edge<I>],
    wanted: &[Edge<I>],
) -> Result<(), OverlayError> {
    let mut content = arranged(rt, alloc, Solver::Snapping, edges)?;
    assert!(rt; content.edges() == wanted);
    assert!(rt; !content.arrange(Solver::Snapping, &mut ())?);
    assert!(rt; content.edges() == wanted);
    Ok(())
}

// Both solvers cut the edges into the wanted.
fn check_alike<I: IntNumber + PartialEq>(
    rt: &impl Abort,
    alloc: Global,
    edges: &[Edge<I>],
    wanted: &[Edge<I>],
) -> Result<(), OverlayError> {
    let content = arranged(rt, alloc, Solver::Rounds, edges)?;
    assert!(rt; content.edges() == wanted);
    check_snapped(rt, alloc, edges, wanted)
}

#[test]
fn whole_meeting_points_are_alike_for_both_solvers(rt: HostRuntime) -> Result<(), Fail> {
    // A crossing, a T-junction, overlaps, and a foreign end within half a unit of an edge that it does not meet.
    let edges = [edge(0i32, 0, 10, 10, 1), edge(0, 10, 10, 0, 1)];
    let wanted = [
        edge(0, 0, 5, 5, 1),
        edge(0, 10, 5, 5, 1),
        edge(5, 5, 10, 0, 1),
        edge(5, 5, 10, 10, 1),
    ];
    check_alike(&rt, rt.alloc(), &edges, &wanted)?;
    let edges = [edge(0i32, 0, 6, 3, 1), edge(4, -5, 4, 2, 1)];
    let wanted = [
        edge(0, 0, 4, 2, 1),
        edge(4, -5, 4, 2, 1),
        edge(4, 2, 6, 3, 1),
    ];
    check_alike(&rt, rt.alloc(), &edges, &wanted)?;
    let edges = [edge(0i32, 0, 4, 0, 1), edge(2, 0, 6, 0, 1)];
    let wanted = [
        edge(0, 0, 2, 0, 1),
        edge(2, 0, 4, 0, 2),
        edge(4, 0, 6, 0, 1),
    ];
    check_alike(&rt, rt.alloc(), &edges, &wanted)?;
    let edges = [
        edge(0i32, 0, 4, 4, 1),
        edge(0, 4, 4, 0, 1),
        edge(10, 0, 13, 1, 1),
        edge(11, -5, 11, 0, 1),
    ];
    let wanted = [
        edge(0, 0, 2, 2, 1),
        edge(0, 4, 2, 2, 1),
        edge(2, 2, 4, 0, 1),
        edge(2, 2, 4, 4, 1),
        edge(10, 0, 13, 1, 1),
        edge(11, -5, 11, 0, 1),
    ];
    check_alike(&rt, rt.alloc(), &edges, &wanted)?;
    Ok(())
}

#[test]
fn a_settled_list_is_not_snapped(rt: HostRuntime) -> Result<(), Fail> {
    // (1, 0) is within half a unit of the long edge, and not on it.
    let edges = [edge(0i32, 0, 3, 1, 1), edge(1, -5, 1, 0, 1)];
    let mut content = with_edges(&rt, rt.alloc(), &edges)?;
    assert!(rt; !content.arrange(Solver::Snapping, &mut ())?);
    assert!(rt; content.edges() == edges.as_slice());
    Ok(())
}

#[test]
fn a_foreign_end_bends_an_edge_where_some_point_is_rounded(rt: HostRuntime) -> Result<(), Fail> {
    // The last two cross in (3/2, 23/2), so all edges are snapped.
    let edges = [
        edge(0i32, 0, 3, 1, 1),
        edge(1, -5, 1, 0, 1),
        edge(0, 10, 3, 13, 1),
        edge(0, 13, 3, 10, 1),
    ];
    let wanted = [
        edge(0, 0, 1, 0, 1),
        edge(0, 10, 2, 12, 1),
        edge(0, 13, 2, 12, 1),
        edge(1, -5, 1, 0, 1),
        edge(1, 0, 3, 1, 1),
        edge(2, 12, 3, 10, 1),
        edge(2, 12, 3, 13, 1),
    ];
    check_snapped(&rt, rt.alloc(), &edges, &wanted)?;
    Ok(())
}

// Two thin triangles, one down to the lowest height and the other up to the highest, which cross near their long sides.
fn zipper<I: Copy>(low: I, numbers: [I; 4], high: I, highest: I) -> [Edge<I>; 6] {
    let [minus_one, zero, one, two] = numbers;
    [
        edge(zero, high, two, zero, -1),
        edge(zero, high, two, low, 1),
        edge(two, low, two, zero, 1),
        edge(zero, highest, one, zero, -1),
        edge(minus_one, zero, zero, highest, -1),
        edge(minus_one, zero, one, zero, 1),
    ]
}

// Rounds refuse the zipper, and snapped it has five edges.
macro_rules! check_zipper {
    ($rt:expr, $height:expr) => {{
        let height = $height;
        let edges = zipper(-height, [-1, 0, 1, 2], height, height + 1);
        let wanted = [
            edge(-1, 0, 0, height - 1, -1),
            edge(-1, 0, 1, 0, 1),
            edge(0, height - 1, 2, 0, -1),
            edge(1, 0, 2, -height, 1),
            edge(2, -height, 2, 0, 1),
        ];
        let mut content = with_edges(&$rt, $rt.alloc(), &edges)?;
        assert!($rt; content.arrange(Solver::Rounds, &mut ()) == Err(OverlayError::NotSettled));
        check_snapped(&$rt, $rt.alloc(), &edges, &wanted)?;
    }};
}

#[test]
fn zippers_that_rounds_refuse(rt: HostRuntime) -> Result<(), Fail> {
    check_zipper!(rt, 66i16);
    check_zipper!(rt, 400i16);
    check_zipper!(rt, 4000i16);
    check_zipper!(rt, 66i32);
    check_zipper!(rt, 400i32);
    check_zipper!(rt, 4000i32);
    check_zipper!(rt, 66i64);
    check_zipper!(rt, 400i64);
    check_zipper!(rt, 4000i64);
    Ok(())
}

#[test]
fn two_triangles_that_rounds_refuse(rt: HostRuntime) -> Result<(), Fail> {
    let edges = [
        edge(17462252i32, 11439146, 17473154, 11555078, 1),
        edge(17473154, 11555078, 17491277, 11748862, 1),
        edge(17462252, 11439146, 17491277, 11748862, -1),
        edge(17551448, 12079161, 17586307, 11793282, -1),
        edge(17464844, 11603212, 17551448, 12079161, -1),
        edge(17464844, 11603212, 17586307, 11793282, 1),
    ];
    let mut content = with_edges(&rt, rt.alloc(), &edges)?;
    assert!(rt; content.arrange(Solver::Rounds, &mut ()) == Err(OverlayError::NotSettled));
    let wanted = [
        edge(17462252, 11439146, 17473154, 11555078, 1),
        edge(17462252, 11439146, 17479824, 11626654, -1),
        edge(17464844, 11603212, 17479824, 11626654, 1),
        edge(17464844, 11603212, 17491203, 11748074, -1),
        edge(17473154, 11555078, 17479852, 11626697, 1),
        edge(17479824, 11626654, 17479852, 11626697, 1),
        edge(17479824, 11626654, 17491203, 11748074, -1),
        edge(17479852, 11626697, 17491203, 11748074, 1),
        edge(17479852, 11626697, 17586307, 11793282, 1),
        edge(17491203, 11748074, 17491203, 11748075, -1),
        edge(17491203, 11748075, 17551448, 12079161, -1),
        edge(17551448, 12079161, 17586307, 11793282, -1),
    ];
    check_snapped(&rt, rt.alloc(), &edges, &wanted)?;
    Ok(())
}

// Four edges between the corners of the range.
macro_rules! check_needles {
    ($rt:expr, $far:expr) => {{
        let far = $far;
        let edges = [
            edge(-far, -far, far, far - 1, 1),
            edge(-far, -far + 1, far, far - 2, 1),
            edge(-far, far, far, -far + 1, 1),
            edge(-far, far - 1, far, -far, 1),
        ];
        let wanted = [
            edge(-far, -far, 0, 0, 1),
            edge(-far, -far + 1, 0, 0, 1),
            edge(-far, far - 1, 0, 0, 1),
            edge(-far, far, 0, 0, 1),
            edge(0, 0, 1, 0, 3),
            edge(0, 0, far, -far, 1),
            edge(1, 0, far, -far + 1, 1),
            edge(1, 0, far, far - 2, 1),
            edge(1, 0, far, far - 1, 1),
        ];
        check_snapped(&$rt, $rt.alloc(), &edges, &wanted)?;
    }};
}

#[test]
fn needles_at_the_ends_of_the_range(rt: HostRuntime) -> Result<(), Fail> {
    check_needles!(rt, 16383i16);
    check_needles!(rt, 1073741823i32);
    check_needles!(rt, 4611686018427387903i64);
    Ok(())
}

#[test]
fn a_snap_may_weigh_too_much(rt: HostRuntime) -> Result<(), Fail> {
    // They cross in (3/2, 3/2): cut into two, the edges weigh twice as much.
    let edges = [edge(0i32, 0, 3, 3, 1073741823), edge(0, 3, 3, 0, 1)];
    let mut content = with_edges(&rt, rt.alloc(), &edges)?;
    assert_eq!(rt;
        content.arrange(Solver::Snapping, &mut ()),
        Err(OverlayError::TooManyEdges)
    );
    Ok(())
}

// A zipper in this memory.
fn zipper_in<A: Allocator>(alloc: A) -> Result<Content<i32, ShapeCountBoolean, A>, OverlayError> {
    let mut content = Content::with_capacity(alloc, 0)?;
    for edge in zipper(-66i32, [-1, 0, 1, 2], 66, 67) {
        content.push(edge)?;
    }
    Ok(content)
}

#[test]
fn each_growth_of_a_snap_is_refused(rt: HostRuntime) -> Result<(), Fail> {
    let memory = Refusing::new(rt.alloc(), PLENTY);
    for granted in 0..PLENTY {
        memory.grant(PLENTY);
        let mut content = zipper_in(&memory)?;
        memory.grant(granted);
        let answer = content.arrange(Solver::Snapping, &mut ());
        assert!(rt; memory.left() == 0);
        if answer == Ok(true) {
            assert!(rt; granted > 0 && content.len() == 5);
            return Ok(());
        }
        assert!(rt; answer == Err(OverlayError::Memory), "after {granted}");
    }
    assert!(rt; false, "it takes more requests");
    Ok(())
}
