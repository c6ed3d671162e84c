//! Points of a list: whether one stands twice.

use overlay_geom::error::OverlayError;
use overlay_geom::number::IntNumber;
use overlay_geom::point::IntPoint;
use overlay_walk::points_once::has_each_point_once;
use std::alloc::Global;
use std::process::Abort;
use std::test::Fail;

// The points (0, 0), (7, 1), (14, 2) and so on, the x-coordinates without their hundreds, and `more` behind them.
fn points<I: IntNumber + From<i16>>(
    alloc: Global,
    count: i16,
    more: &[(i16, i16)],
) -> Result<Vec<IntPoint<I>>, OverlayError> {
    let mut points = Vec::new(alloc);
    for k in 0..count {
        points.push(IntPoint::new(I::from(k * 7 % 100), I::from(k)))?;
    }
    for (x, y) in more {
        points.push(IntPoint::new(I::from(*x), I::from(*y)))?;
    }
    Ok(points)
}

// Lists that are sorted by comparison alone, and lists that are put in order by digits first.
fn check<I: IntNumber + From<i16>>(rt: &impl Abort, alloc: Global) -> Result<(), OverlayError> {
    for count in [0, 1, 2, 40, 300] {
        assert!(rt; has_each_point_once(alloc, &points::<I>(alloc, count, &[])?)?);
        assert!(rt; has_each_point_once(alloc, &points::<I>(alloc, count, &[(0, -1), (-1, 0)])?)?);
        assert!(rt; !has_each_point_once(alloc, &points::<I>(alloc, count, &[(5, -5), (5, -5)])?)?);
        let again = has_each_point_once(alloc, &points::<I>(alloc, count, &[(0, 0)])?)?;
        assert!(rt; again == (count == 0));
    }
    Ok(())
}

#[test]
fn points_at_i16(rt: HostRuntime) -> Result<(), Fail> {
    Ok(check::<i16>(&rt, rt.alloc())?)
}

#[test]
fn points_at_i32(rt: HostRuntime) -> Result<(), Fail> {
    Ok(check::<i32>(&rt, rt.alloc())?)
}

#[test]
fn points_at_i64(rt: HostRuntime) -> Result<(), Fail> {
    Ok(check::<i64>(&rt, rt.alloc())?)
}
