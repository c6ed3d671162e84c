//! Differences and cross products at each coordinate type.

use overlay_geom::number::IntNumber;
use overlay_geom::point::IntPoint;
use overlay_geom::vector::{IntVector, cross_at};
use std::process::Abort;

// Stops the test where the point is out of range.
fn assert_in_range<I: IntNumber>(rt: &impl Abort, p: IntPoint<I>) {
    assert!(rt; p.x.is_in_range());
    assert!(rt; p.y.is_in_range());
}

// The cross product of the vectors from v to p and from v to q, by `cross_at`.
fn cross_from<I: IntNumber>(
    rt: &impl Abort,
    v: IntPoint<I>,
    p: IntPoint<I>,
    q: IntPoint<I>,
) -> I::Wide {
    assert_in_range(rt, v);
    assert_in_range(rt, p);
    assert_in_range(rt, q);
    cross_at(v, p, q)
}

// The cross product as a product of differences.
fn cross_of_ways<I: IntNumber>(
    rt: &impl Abort,
    v: IntPoint<I>,
    p: IntPoint<I>,
    q: IntPoint<I>,
) -> I::Wide {
    assert_in_range(rt, v);
    assert_in_range(rt, p);
    assert_in_range(rt, q);
    (p - v).cross_product(q - v)
}

#[test]
fn differences(rt: HostRuntime) {
    let v = IntPoint::new(3i16, 1) - IntPoint::new(1, 4);
    assert_eq!(rt; v, IntVector::new(2, -3));
    let v = IntPoint::new(1073741823i32, 0) - IntPoint::new(-1073741823, 1);
    assert_eq!(rt; v, IntVector::new(2147483646, -1));
    let v = IntPoint::new(0i64, -4611686018427387903) - IntPoint::new(0, 4611686018427387903);
    assert_eq!(rt; v, IntVector::new(0, -9223372036854775806));
}

#[test]
fn cross_products(rt: HostRuntime) {
    let right = IntVector::new(2i16, 0);
    let up = IntVector::new(1i16, 3);
    assert_eq!(rt; right.cross_product(up), 6);
    assert_eq!(rt; up.cross_product(right), -6);
    assert_eq!(rt;
        IntVector::new(2i32, 3).cross_product(IntVector::new(4, 6)),
        0
    );
    assert_eq!(rt;
        IntVector::new(1i64, 0).cross_product(IntVector::new(5, 1)),
        1
    );
}

#[test]
fn cross_products_from_a_point(rt: HostRuntime) {
    let v = IntPoint::new(1i16, 1);
    let (right, up) = (IntPoint::new(4, 1), IntPoint::new(2, 3));
    assert_eq!(rt; cross_from(&rt, v, right, up), 6);
    assert_eq!(rt; cross_from(&rt, v, up, right), -6);
    let v = IntPoint::new(-1073741823i32, -1073741823);
    let (right, up) = (
        IntPoint::new(1073741823, v.y),
        IntPoint::new(v.x, 1073741823),
    );
    assert_eq!(rt; cross_from(&rt, v, right, up), 4611686009837453316);
    let v = IntPoint::new(0i64, 0);
    assert_eq!(rt;
        cross_from(&rt, v, IntPoint::new(1, 2), IntPoint::new(-2, -4)),
        0
    );
}

#[test]
fn cross_products_at_the_ends_of_the_range(rt: HostRuntime) {
    let (low, high) = (IntPoint::new(-16383i16, -16383), 16383);
    let (right, up) = (IntPoint::new(high, low.y), IntPoint::new(low.x, high));
    assert_eq!(rt; cross_of_ways(&rt, low, right, up), 1073610756);
    let (low, high) = (IntPoint::new(-1073741823i32, -1073741823), 1073741823);
    let (right, up) = (IntPoint::new(high, low.y), IntPoint::new(low.x, high));
    assert_eq!(rt; cross_of_ways(&rt, low, up, right), -4611686009837453316);
    let far = 4611686018427387903;
    let low = IntPoint::new(-4611686018427387903i64, -4611686018427387903);
    let (right, up) = (IntPoint::new(far, low.y), IntPoint::new(low.x, far));
    assert_eq!(rt;
        cross_of_ways(&rt, low, right, up),
        85070591730234615828950163710522949636
    );
}
