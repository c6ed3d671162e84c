//! Windings at whole points.

use overlay_exact::point_windings::{PointWindings, windings_at, windings_at_points};
use overlay_geom::point::IntPoint;
use overlay_order::count::ShapeCountBoolean;
use overlay_order::edge::CountedEdge;
use std::test::Fail;

fn edge<I>(ax: I, ay: I, bx: I, by: I, subj: i32, clip: i32) -> CountedEdge<I, ShapeCountBoolean> {
    CountedEdge {
        a: IntPoint::new(ax, ay),
        b: IntPoint::new(bx, by),
        count: ShapeCountBoolean { subj, clip },
    }
}

fn wound(subj: i64, clip: i64) -> PointWindings {
    PointWindings { subj, clip }
}

// The subject's square from (0, 0) to (4, 4), and the clip's triangle (1, 1), (6, 1), (1, 6).
fn square_and_triangle() -> [CountedEdge<i32, ShapeCountBoolean>; 7] {
    [
        edge(0, 0, 0, 4, -1, 0),
        edge(0, 0, 4, 0, 1, 0),
        edge(0, 4, 4, 4, -1, 0),
        edge(1, 1, 1, 6, 0, -1),
        edge(1, 1, 6, 1, 0, 1),
        edge(1, 6, 6, 1, 0, -1),
        edge(4, 0, 4, 4, 1, 0),
    ]
}

#[test]
fn a_square_and_a_triangle(rt: HostRuntime) {
    let edges = square_and_triangle();
    assert_eq!(rt; windings_at(&edges, IntPoint::new(2, 2)), wound(1, 1));
    assert_eq!(rt; windings_at(&edges, IntPoint::new(1, 5)), wound(0, 1));
    assert_eq!(rt; windings_at(&edges, IntPoint::new(0, 2)), wound(1, 0));
    // On edges those through the point do not count: (3, 4) is on the triangle's slope and on the square's top.
    assert_eq!(rt; windings_at(&edges, IntPoint::new(3, 4)), wound(1, 1));
    assert_eq!(rt; windings_at(&edges, IntPoint::new(3, 5)), wound(0, 0));
    // An edge counts from its left end on, and no longer at its right one.
    assert_eq!(rt; windings_at(&edges, IntPoint::new(4, 2)), wound(0, 1));
    assert_eq!(rt; windings_at(&edges, IntPoint::new(6, 3)), wound(0, 0));
}

// Points may be equal, and lie left and right of all edges.
#[test]
fn many_points(rt: HostRuntime) -> Result<(), Fail> {
    let edges = square_and_triangle();
    let points = [
        IntPoint::new(-1, 3),
        IntPoint::new(0, 0),
        IntPoint::new(0, 2),
        IntPoint::new(1, 5),
        IntPoint::new(1, 1),
        IntPoint::new(2, 2),
        IntPoint::new(2, 2),
        IntPoint::new(4, 2),
        IntPoint::new(5, 1),
        IntPoint::new(9, 9),
    ];
    let found = windings_at_points(rt.alloc(), &edges, &points)?;
    let wanted = [
        wound(0, 0),
        wound(0, 0),
        wound(1, 0),
        wound(0, 1),
        wound(1, 0),
        wound(1, 1),
        wound(1, 1),
        wound(0, 1),
        wound(0, 0),
        wound(0, 0),
    ];
    assert!(rt; found[..] == wanted[..]);
    let none: [CountedEdge<i32, ShapeCountBoolean>; 0] = [];
    assert!(rt; windings_at_points(rt.alloc(), &none, &points)?[5] == wound(0, 0));
    Ok(())
}

// The first line passes below (0, 0), at -1 / 2, and the second above it, at 1 / 2.
#[test]
fn ends_of_the_range(rt: HostRuntime) {
    let l = 4611686018427387903i64;
    let edges = [
        edge(-l, -l, l, l - 1, 1000000000, 0),
        edge(-l, 1 - l, l, l, 0, -1000000000),
    ];
    assert_eq!(rt;
        windings_at(&edges, IntPoint::new(0, 0)),
        wound(1000000000, 0)
    );
    assert_eq!(rt;
        windings_at(&edges, IntPoint::new(0, 1)),
        wound(1000000000, -1000000000)
    );
    assert_eq!(rt; windings_at(&edges, IntPoint::new(l, l)), wound(0, 0));
}
