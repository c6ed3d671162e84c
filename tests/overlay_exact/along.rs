//! The meeting points of an edge with others, and their order along it.

use overlay_exact::along::{push_met, sort_along};
use overlay_geom::edge::IntEdge;
use overlay_geom::point::IntPoint;
use std::alloc::Allocator;
use std::test::Fail;

fn edge(ax: i64, ay: i64, bx: i64, by: i64) -> IntEdge<i64> {
    IntEdge {
        a: IntPoint::new(ax, ay),
        b: IntPoint::new(bx, by),
    }
}

// The numbers of the edges that the first one meets, in their order along it, with each point's part.
fn met<A: Allocator + Copy>(
    alloc: A,
    e: IntEdge<i64>,
    others: &[IntEdge<i64>],
) -> Result<Vec<(usize, i128, i128), A>, Fail> {
    let mut found = Vec::new(alloc);
    for i in 0..others.len() {
        push_met(&mut found, e, others[i], i)?;
    }
    sort_along::<i64, A>(&mut found)?;
    let mut told = Vec::new(alloc);
    for m in &found {
        told.push((m.other, m.part.n, m.part.d))?;
    }
    Ok(told)
}

// At x = 20 / 7, then three edges at 10 / 3, then one at 5.
#[test]
fn crossings_in_order(rt: HostRuntime) -> Result<(), Fail> {
    let others = [
        edge(0, -1, 10, 1),
        edge(1, -7, 4, 2),
        edge(0, -2, 10, 5),
        edge(0, 1, 10, -2),
        edge(0, -1, 10, 2),
    ];
    let told = met(rt.alloc(), edge(0, 0, 10, 0), &others)?;
    let want = [
        (2, 20, 70),
        (1, 30, 90),
        (3, 10, 30),
        (4, 10, 30),
        (0, 10, 20),
    ];
    assert!(rt; told[..] == want[..]);
    Ok(())
}

// On a falling edge the order is that of x too; on an upright one it is upwards.
#[test]
fn crossings_of_falling_and_upright_edges(rt: HostRuntime) -> Result<(), Fail> {
    let others = [edge(4, -9, 4, 9), edge(1, -9, 1, 9)];
    let told = met(rt.alloc(), edge(0, 3, 6, -3), &others)?;
    assert!(rt; told[..] == [(1, 18, 108), (0, 72, 108)][..]);
    let others = [edge(-1, 4, 2, 4), edge(-1, -2, 2, 1)];
    let told = met(rt.alloc(), edge(0, -6, 0, 6), &others)?;
    assert!(rt; told[..] == [(1, 15, 36), (0, 30, 36)][..]);
    Ok(())
}

// An overlap has two ends, in which the edge goes on or not.
#[test]
fn overlaps(rt: HostRuntime) -> Result<(), Fail> {
    let e = edge(0, 0, 6, 0);
    let told = met(rt.alloc(), e, &[edge(2, 0, 9, 0)])?;
    assert!(rt; told[..] == [(0, 12, 36), (0, 36, 36)][..]);
    let told = met(rt.alloc(), e, &[edge(-2, 0, 9, 0)])?;
    assert!(rt; told[..] == [(0, 0, 36), (0, 36, 36)][..]);
    let told = met(rt.alloc(), e, &[edge(1, 0, 3, 0)])?;
    assert!(rt; told[..] == [(0, 6, 36), (0, 18, 36)][..]);
    let told = met(rt.alloc(), e, &[e])?;
    assert!(rt; told[..] == [(0, 0, 36), (0, 36, 36)][..]);
    Ok(())
}

// Edges on one line that share an end meet in it alone.
#[test]
fn shared_ends(rt: HostRuntime) -> Result<(), Fail> {
    let e = edge(0, 0, 6, 0);
    let told = met(
        rt.alloc(),
        e,
        &[edge(6, 0, 9, 0), edge(-3, 0, 0, 0), edge(3, 0, 3, 7)],
    )?;
    assert!(rt; told[..] == [(1, 0, 36), (2, 21, 42), (0, 36, 36)][..]);
    Ok(())
}

#[test]
fn edges_that_do_not_meet(rt: HostRuntime) -> Result<(), Fail> {
    let e = edge(0, 0, 6, 0);
    let others = [
        edge(7, 0, 9, 0),
        edge(0, 1, 6, 1),
        edge(2, 1, 2, 5),
        edge(7, -1, 9, 1),
    ];
    let told = met(rt.alloc(), e, &others)?;
    assert!(rt; told.is_empty());
    Ok(())
}
