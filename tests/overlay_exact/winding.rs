//! How the winding right of an edge changes where another edge meets it.

use overlay_exact::winding::winding_step;
use overlay_geom::edge::IntEdge;
use overlay_geom::point::IntPoint;

fn edge<I>(ax: I, ay: I, bx: I, by: I) -> IntEdge<I> {
    IntEdge {
        a: IntPoint::new(ax, ay),
        b: IntPoint::new(bx, by),
    }
}

// Below a level edge is its right side.
#[test]
fn edges_across_a_level_one(rt: HostRuntime) {
    let e = edge(0i64, 0, 10, 0);
    assert_eq!(rt; winding_step(e, edge(0, 1, 10, -2)), 1);
    assert_eq!(rt; winding_step(e, edge(0, -1, 10, 2)), -1);
    assert_eq!(rt; winding_step(e, edge(3, -1, 3, 2)), -1);
}

// Right of an upright edge the winding changes with each edge across, since all lead to the right.
#[test]
fn edges_across_an_upright_one(rt: HostRuntime) {
    let e = edge(0i32, 0, 0, 10);
    assert_eq!(rt; winding_step(e, edge(-1, 3, 4, 5)), 1);
    assert_eq!(rt; winding_step(e, edge(-1, 5, 4, 3)), 1);
}

// An edge that begins or ends on it counts where its other end lies to the right.
#[test]
fn edges_with_an_end_on_it(rt: HostRuntime) {
    let e = edge(0i16, 0, 10, 0);
    assert_eq!(rt; winding_step(e, edge(3, 0, 5, -4)), 1);
    assert_eq!(rt; winding_step(e, edge(3, 0, 5, 4)), 0);
    assert_eq!(rt; winding_step(e, edge(1, -3, 4, 0)), -1);
    assert_eq!(rt; winding_step(e, edge(1, 3, 4, 0)), 0);
    assert_eq!(rt; winding_step(e, edge(2, 0, 7, 0)), 0);
    assert_eq!(rt; winding_step(e, e), 0);
}

#[test]
fn ends_of_the_range(rt: HostRuntime) {
    let l = 4611686018427387903i64;
    let e = edge(-l, -l, l, l);
    assert_eq!(rt; winding_step(e, edge(-l, l, l, -l)), 1);
    assert_eq!(rt; winding_step(e, edge(1 - l, -l, l, l)), -1);
    assert_eq!(rt; winding_step(e, edge(-l, -l, l, l - 1)), 1);
}
