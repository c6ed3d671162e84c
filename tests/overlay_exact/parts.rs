//! The parts of an edge at which other edges cross it, and at which whole points lie.

use overlay_exact::place::{compare_parts, part_of_crossing, part_of_point};
use overlay_geom::edge::IntEdge;
use overlay_geom::point::IntPoint;
use std::cmp::Ordering;

fn edge<I>(ax: I, ay: I, bx: I, by: I) -> IntEdge<I> {
    IntEdge {
        a: IntPoint::new(ax, ay),
        b: IntPoint::new(bx, by),
    }
}

// The level edge up to (10, 0) is crossed at x = 10 / 3 and at x = 20 / 7.
#[test]
fn crossings_at_thirds_and_sevenths(rt: HostRuntime) {
    let e = edge(0i64, 0, 10, 0);
    let third = part_of_crossing(e, edge(0, -1, 10, 2));
    assert_eq!(rt; (third.n, third.d), (10, 30));
    let two_sevenths = part_of_crossing(e, edge(0, -2, 10, 5));
    assert_eq!(rt; (two_sevenths.n, two_sevenths.d), (20, 70));
    assert_eq!(rt; compare_parts::<i64>(two_sevenths, third), Ordering::Less);
    assert_eq!(rt;
        compare_parts::<i64>(third, two_sevenths),
        Ordering::Greater
    );
}

// All three edges cross it at x = 10 / 3.
#[test]
fn edges_through_one_point_that_is_not_whole(rt: HostRuntime) {
    let e = edge(0i32, 0, 10, 0);
    let rising = part_of_crossing(e, edge(0, -1, 10, 2));
    let falling = part_of_crossing(e, edge(0, 1, 10, -2));
    let steep = part_of_crossing(e, edge(1, -7, 4, 2));
    assert_eq!(rt; (steep.n, steep.d), (30, 90));
    assert_eq!(rt; compare_parts::<i32>(rising, falling), Ordering::Equal);
    assert_eq!(rt; compare_parts::<i32>(falling, steep), Ordering::Equal);
}

#[test]
fn edges_that_meet_at_an_end(rt: HostRuntime) {
    let e = edge(0i16, 0, 6, 3);
    let at_start = part_of_crossing(e, edge(0, 0, 1, 5));
    assert_eq!(rt; at_start.n, 0);
    let at_end = part_of_crossing(e, edge(4, 9, 6, 3));
    assert_eq!(rt; at_end.n, at_end.d);
}

// From (0, 0) to (6, 3) the product of the way to (2, 1) is 15, and the edge's own is 45.
#[test]
fn whole_points(rt: HostRuntime) {
    let e = edge(0i64, 0, 6, 3);
    let third = part_of_point(e, IntPoint::new(2, 1));
    assert_eq!(rt; (third.n, third.d), (15, 45));
    let third_too = part_of_crossing(e, edge(2, 0, 2, 9));
    assert_eq!(rt; compare_parts::<i64>(third, third_too), Ordering::Equal);
    let start = part_of_point(e, e.a);
    assert_eq!(rt; (start.n, start.d), (0, 45));
    let end = part_of_point(e, e.b);
    assert_eq!(rt; (end.n, end.d), (45, 45));
    assert!(rt; start.is_start() && !start.is_end());
    assert!(rt; end.is_end() && !end.is_start());
    assert!(rt; !third.is_start() && !third.is_end());
    let upright = edge(1i64, -4, 1, 4);
    let half = part_of_point(upright, IntPoint::new(1, 0));
    assert_eq!(rt; (half.n, half.d), (32, 64));
}

// The diagonals of the coordinate range cross in the middle. An edge that starts one unit lower crosses sooner: over
// the middle it is half a unit too low.
#[test]
fn ends_of_the_range(rt: HostRuntime) {
    let l = 16383i16;
    let e = edge(-l, -l, l, l);
    let middle = part_of_crossing(e, edge(-l, l, l, -l));
    let sooner = part_of_crossing(e, edge(-l, l - 1, l, -l));
    assert_eq!(rt; compare_parts::<i16>(sooner, middle), Ordering::Less);
    let l = 1073741823i32;
    let e = edge(-l, -l, l, l);
    let middle = part_of_crossing(e, edge(-l, l, l, -l));
    let sooner = part_of_crossing(e, edge(-l, l - 1, l, -l));
    assert_eq!(rt; compare_parts::<i32>(sooner, middle), Ordering::Less);
    let l = 4611686018427387903i64;
    let e = edge(-l, -l, l, l);
    let middle = part_of_crossing(e, edge(-l, l, l, -l));
    let sooner = part_of_crossing(e, edge(-l, l - 1, l, -l));
    assert_eq!(rt; compare_parts::<i64>(sooner, middle), Ordering::Less);
    let whole = part_of_point(e, IntPoint::new(0, 0));
    assert_eq!(rt; compare_parts::<i64>(whole, middle), Ordering::Equal);
}
