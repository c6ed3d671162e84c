//! The meeting points of all edges of a list, and groups of equal ones.

use overlay_exact::exact_int::ExactInt;
use overlay_exact::group::group_end;
use overlay_exact::meetings::find_meetings;
use overlay_exact::met::MetAlong;
use overlay_geom::point::IntPoint;
use overlay_order::count::ShapeCountBoolean;
use overlay_order::edge::CountedEdge;
use std::alloc::Allocator;
use std::test::Fail;

// Number of level edges, and of upright edges that each of them crosses.
const LINES: usize = 30;

fn edge<I>(ax: I, ay: I, bx: I, by: I) -> CountedEdge<I, ShapeCountBoolean> {
    CountedEdge {
        a: IntPoint::new(ax, ay),
        b: IntPoint::new(bx, by),
        count: ShapeCountBoolean { subj: 1, clip: 0 },
    }
}

// The numbers of the edges that are met.
fn numbers<I: ExactInt, A: Allocator>(
    alloc: A,
    met: &[MetAlong<I::Wide>],
) -> Result<Vec<usize, A>, Fail> {
    let mut told = Vec::new(alloc);
    for m in met {
        told.push(m.other)?;
    }
    Ok(told)
}

// The ends of the groups, one after the other.
fn group_ends<I: ExactInt, A: Allocator>(
    alloc: A,
    met: &[MetAlong<I::Wide>],
) -> Result<Vec<usize, A>, Fail> {
    let mut told = Vec::new(alloc);
    let mut at = 0;
    while at < met.len() {
        at = group_end::<I>(met, at);
        told.push(at)?;
    }
    Ok(told)
}

// All four meet at (10 / 3, 0).
#[test]
fn edges_through_one_point_that_is_not_whole(rt: HostRuntime) -> Result<(), Fail> {
    let edges = [
        edge(0i32, -1, 10, 2),
        edge(0, 0, 10, 0),
        edge(0, 1, 10, -2),
        edge(1, -7, 4, 2),
    ];
    let found = find_meetings(rt.alloc(), &edges)?;
    assert!(rt; found.starts[..] == [0, 3, 6, 9, 12][..]);
    let others = numbers::<i32, _>(rt.alloc(), &found.met)?;
    assert!(rt; others[..] == [1, 2, 3, 0, 2, 3, 0, 1, 3, 0, 1, 2][..]);
    for i in 0..4 {
        let own = &found.met[3 * i..3 * i + 3];
        assert_eq!(rt; group_end::<i32>(own, 0), 3);
        assert_eq!(rt; group_end::<i32>(own, 1), 3);
    }
    Ok(())
}

// A square of side 4 with a diagonal, and an edge along its lower side from (2, 0) to (6, 0).
#[test]
fn shared_ends_and_an_overlap(rt: HostRuntime) -> Result<(), Fail> {
    let edges = [
        edge(0i64, 0, 0, 4),
        edge(0, 0, 4, 0),
        edge(0, 0, 4, 4),
        edge(0, 4, 4, 4),
        edge(2, 0, 6, 0),
        edge(4, 0, 4, 4),
    ];
    let found = find_meetings(rt.alloc(), &edges)?;
    assert!(rt; found.starts[..] == [0, 3, 8, 12, 15, 18, 22][..]);
    let others = numbers::<i64, _>(rt.alloc(), &found.met)?;
    assert!(rt; others[..8] == [1, 2, 3, 0, 2, 4, 4, 5][..]);
    assert!(rt; others[8..15] == [0, 1, 3, 5, 0, 2, 5][..]);
    assert!(rt; others[15..] == [1, 1, 5, 1, 4, 2, 3][..]);
    let lower = group_ends::<i64, _>(rt.alloc(), &found.met[3..8])?;
    assert!(rt; lower[..] == [2, 3, 5][..]);
    let along = group_ends::<i64, _>(rt.alloc(), &found.met[15..18])?;
    assert!(rt; along[..] == [1, 3][..]);
    Ok(())
}

#[test]
fn edges_that_do_not_meet(rt: HostRuntime) -> Result<(), Fail> {
    let none: [CountedEdge<i16, ShapeCountBoolean>; 0] = [];
    let found = find_meetings(rt.alloc(), &none)?;
    assert!(rt; found.starts[..] == [0][..] && found.met.is_empty());
    let apart = [edge(0i16, 0, 4, 0), edge(0, 1, 4, 1), edge(5, 0, 6, 7)];
    let found = find_meetings(rt.alloc(), &apart)?;
    assert!(rt; found.starts[..] == [0, 0, 0, 0][..] && found.met.is_empty());
    Ok(())
}

// Each level edge crosses all upright ones from left to right, and each upright one all level ones upwards.
#[test]
fn many_edges(rt: HostRuntime) -> Result<(), Fail> {
    let mut edges = Vec::new(rt.alloc());
    let mut at = 0i64;
    for _ in 0..LINES {
        edges.push(edge(-1, at, 1000, at))?;
        at += 1;
    }
    at = 0;
    for _ in 0..LINES {
        edges.push(edge(at, -1, at, 1000))?;
        at += 1;
    }
    let found = find_meetings(rt.alloc(), &edges)?;
    assert_eq!(rt; found.starts.len(), 2 * LINES + 1);
    for i in 0..2 * LINES {
        let own = &found.met[found.starts[i]..found.starts[i + 1]];
        assert_eq!(rt; own.len(), LINES);
        let first = if i < LINES { LINES } else { 0 };
        for k in 0..LINES {
            assert_eq!(rt; own[k].other, first + k);
            assert_eq!(rt; group_end::<i64>(own, k), k + 1);
        }
    }
    Ok(())
}
