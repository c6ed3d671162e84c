//! Closed lists without the points that are collinear with their neighbours.

use overlay_geom::error::OverlayError;
use overlay_geom::point::{IntPoint, in_range};
use overlay_geom::thin::thinned;
use std::alloc::Global;
use std::process::Abort;

// Thinned, the points are those that are left.
fn check(
    rt: &impl Abort,
    alloc: Global,
    points: &[IntPoint<i32>],
    left: &[IntPoint<i32>],
) -> Result<(), OverlayError> {
    assert!(rt; in_range(points));
    let corners = thinned(alloc, points)?;
    assert!(rt; corners.as_slice() == left);
    Ok(())
}

#[test]
fn corners_are_left(rt: HostRuntime) -> Result<(), OverlayError> {
    let points = [
        IntPoint::new(1i32, 0),
        IntPoint::new(2, 0),
        IntPoint::new(2, 0),
        IntPoint::new(2, 2),
        IntPoint::new(0, 2),
        IntPoint::new(0, 0),
    ];
    let left = [points[1], points[3], points[4], points[5]];
    check(&rt, rt.alloc(), &points, &left)
}

#[test]
fn a_spike_is_dropped(rt: HostRuntime) -> Result<(), OverlayError> {
    let points = [
        IntPoint::new(0i32, 0),
        IntPoint::new(4, 0),
        IntPoint::new(2, 0),
        IntPoint::new(2, 3),
    ];
    let left = [points[0], points[2], points[3]];
    check(&rt, rt.alloc(), &points, &left)
}

#[test]
fn nothing_is_left_of_a_line(rt: HostRuntime) -> Result<(), OverlayError> {
    let points = [
        IntPoint::new(0i32, 0),
        IntPoint::new(1, 1),
        IntPoint::new(3, 3),
    ];
    check(&rt, rt.alloc(), &points, &[])
}
