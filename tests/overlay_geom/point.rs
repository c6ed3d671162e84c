//! The coordinate range, and the order of points.

use overlay_geom::point::{IntPoint, in_range};

#[test]
fn in_range_at_the_ends(rt: HostRuntime) {
    assert!(rt; !in_range(&[IntPoint::new(16384i16, 0)]));
    assert!(rt; in_range(&[IntPoint::new(16383i16, -16383)]));
    assert!(rt; !in_range(&[IntPoint::new(0i32, -1073741824)]));
    assert!(rt; in_range(&[IntPoint::new(-1073741823i32, 1073741823)]));
    assert!(rt; !in_range(&[IntPoint::new(4611686018427387904i64, 0)]));
    assert!(rt; in_range(&[IntPoint::new(4611686018427387903i64, -4611686018427387903)]));
}

#[test]
fn in_range_of_several(rt: HostRuntime) {
    let near = IntPoint::new(1i16, 2);
    let far = IntPoint::new(1i16, 20000);
    assert!(rt; in_range::<i16>(&[]));
    assert!(rt; in_range(&[near, near]));
    assert!(rt; !in_range(&[near, far, near]));
}

#[test]
fn points_are_ordered_by_x_then_y(rt: HostRuntime) {
    let p = IntPoint::new(1i32, 5);
    assert!(rt; p < IntPoint::new(2, 0));
    assert!(rt; p < IntPoint::new(1, 6));
    assert!(rt; p == IntPoint::new(1, 5));
}
