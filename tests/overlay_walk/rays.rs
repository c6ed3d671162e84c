//! Rays round nodes, at each coordinate type. By `Hand::Right` a ray turns counterclockwise.

use overlay_geom::number::IntNumber;
use overlay_geom::point::{IntPoint, in_range};
use overlay_walk::hand::Hand;
use overlay_walk::nearest::{NearestVector, Ray};
use std::process::Abort;

// The point with these coordinates. Stops the test where it is out of range.
fn point<I: IntNumber>(rt: &impl Abort, x: I, y: I) -> IntPoint<I> {
    let p = IntPoint::new(x, y);
    assert!(rt; in_range(&[p]));
    p
}

// Checks that the ray meets p before q.
fn check_order<I: IntNumber>(rt: &impl Abort, ray: Ray<I>, p: IntPoint<I>, q: IntPoint<I>) {
    assert!(rt; ray.meets_before(p, q));
    assert!(rt; !ray.meets_before(q, p));
}

// Round (0, 0) from (1, 0): the numbers are -1, 0 and 1.
fn check_round_a_node<I: IntNumber>(rt: &impl Abort, n: (I, I, I)) {
    let (minus, zero, one) = n;
    let node = point(rt, zero, zero);
    let (start, up) = (point(rt, one, zero), point(rt, zero, one));
    let (left, down) = (point(rt, minus, zero), point(rt, zero, minus));
    let aslant = point(rt, one, one);
    let hand = Hand::Right;
    check_order(rt, Ray { node, start, hand }, up, left);
    check_order(rt, Ray { node, start, hand }, aslant, up);
    let hand = Hand::Left;
    check_order(rt, Ray { node, start, hand }, down, left);
    check_order(rt, Ray { node, start, hand }, down, aslant);
}

#[test]
fn rays_round_a_node(rt: HostRuntime) {
    check_round_a_node(&rt, (-1i16, 0, 1));
    check_round_a_node(&rt, (-1i32, 0, 1));
    check_round_a_node(&rt, (-1i64, 0, 1));
}

// Round (-1, -1) from (0, -1): the numbers are -2, -1 and 0.
fn check_half_turn<I: IntNumber>(rt: &impl Abort, n: (I, I, I)) {
    let (two, one, zero) = n;
    let (node, start) = (point(rt, one, one), point(rt, zero, one));
    let (left, down) = (point(rt, two, one), point(rt, one, two));
    let hand = Hand::Right;
    check_order(rt, Ray { node, start, hand }, left, down);
    let hand = Hand::Left;
    check_order(rt, Ray { node, start, hand }, down, left);
}

#[test]
fn half_turn_before_the_rest(rt: HostRuntime) {
    check_half_turn(&rt, (-2i16, -1, 0));
    check_half_turn(&rt, (-2i32, -1, 0));
    check_half_turn(&rt, (-2i64, -1, 0));
}

// At the ends of the range: the numbers are the least and the greatest coordinate.
fn check_ends_of_the_range<I: IntNumber>(rt: &impl Abort, n: (I, I)) {
    let (least, far) = n;
    let (node, start) = (point(rt, least, least), point(rt, far, least));
    let (across, up) = (point(rt, far, far), point(rt, least, far));
    let hand = Hand::Right;
    check_order(rt, Ray { node, start, hand }, across, up);
    check_order(rt, Ray { node, start, hand }, up, start);
    let (hand, right) = (Hand::Left, start);
    let start = across;
    check_order(rt, Ray { node, start, hand }, right, up);
    check_order(rt, Ray { node, start, hand }, up, across);
}

#[test]
fn ends_of_the_range(rt: HostRuntime) {
    check_ends_of_the_range(&rt, (-16383i16, 16383));
    check_ends_of_the_range(&rt, (-1073741823i32, 1073741823));
    check_ends_of_the_range(&rt, (-4611686018427387903i64, 4611686018427387903));
}

// Checks that the ray meets neither of p and q before the other.
fn check_at_once<I: IntNumber>(rt: &impl Abort, ray: Ray<I>, p: IntPoint<I>, q: IntPoint<I>) {
    assert!(rt; !ray.meets_before(p, q));
    assert!(rt; !ray.meets_before(q, p));
}

#[test]
fn start_comes_last(rt: HostRuntime) {
    let (node, start) = (point(&rt, 0i32, 0), point(&rt, 2, 0));
    let (before, ahead) = (point(&rt, 3, -1), point(&rt, -5, 0));
    let near = point(&rt, 1, 0);
    let hand = Hand::Right;
    check_order(&rt, Ray { node, start, hand }, before, start);
    check_order(&rt, Ray { node, start, hand }, before, near);
    check_order(&rt, Ray { node, start, hand }, ahead, start);
    check_at_once(&rt, Ray { node, start, hand }, start, near);
    check_at_once(&rt, Ray { node, start, hand }, start, start);
}

// The nearest of some points round (0, 0) from (1, 0): the numbers are -1, 0, 1 and 2.
fn check_nearest_of_some<I: IntNumber>(rt: &impl Abort, n: (I, I, I, I)) {
    let (minus, zero, one, two) = n;
    let (node, start) = (point(rt, zero, zero), point(rt, one, zero));
    let hand = Hand::Right;
    let mut nearest = NearestVector::new(Ray { node, start, hand });
    assert!(rt; nearest.add(start));
    assert!(rt; nearest.add(point(rt, zero, minus)));
    assert!(rt; nearest.add(point(rt, zero, one)));
    assert!(rt; !nearest.add(point(rt, minus, zero)));
    assert!(rt; !nearest.add(point(rt, zero, two)));
    assert!(rt; nearest.add(point(rt, two, one)));
    assert!(rt; !nearest.add(point(rt, zero, one)));
}

#[test]
fn nearest_of_some(rt: HostRuntime) {
    check_nearest_of_some(&rt, (-1i16, 0, 1, 2));
    check_nearest_of_some(&rt, (-1i32, 0, 1, 2));
    check_nearest_of_some(&rt, (-1i64, 0, 1, 2));
}
