//! Resolved contours, at each width.

use crate::asked::points;
use overlay_geom::integer::OverlayInt;
use overlay_geom::point::{IntPoint, in_range};
use overlay_geom::resolved::is_resolved;
use overlay_relate::resolved::is_resolved_in;
use std::alloc::Global;
use std::process::Abort;
use std::test::Fail;

// Tests whether the contour through these points is resolved.
fn resolved<I: OverlayInt + From<i16>>(
    rt: &impl Abort,
    alloc: Global,
    coordinates: &[[i16; 2]],
) -> Result<bool, Fail> {
    let contour = points::<I>(alloc, coordinates)?;
    assert!(rt; in_range(&contour));
    let is_resolved = is_resolved(&contour);
    assert!(rt; is_resolved_in(alloc, &contour)? == is_resolved);
    Ok(is_resolved)
}

fn rows<I: OverlayInt + From<i16>>(rt: &impl Abort, alloc: Global) -> Result<(), Fail> {
    let touching = [[0, 0], [4, 0], [8, 0], [8, 4], [4, 0], [0, 4]];
    assert!(rt; resolved::<I>(rt, alloc, &touching)?);
    let crossing = [[0, 0], [10, 10], [10, 0], [0, 10]];
    assert!(rt; !resolved::<I>(rt, alloc, &crossing)?);
    assert!(rt; !resolved::<I>(rt, alloc, &[[0, 0], [1, 0]])?);
    assert!(rt; resolved::<I>(rt, alloc, &[])?);
    assert!(rt; resolved::<I>(rt, alloc, &[[1, 1]])?);
    Ok(())
}

#[test]
fn resolved_contours(rt: HostRuntime) -> Result<(), Fail> {
    rows::<i16>(&rt, rt.alloc())?;
    rows::<i32>(&rt, rt.alloc())?;
    rows::<i64>(&rt, rt.alloc())
}

#[test]
fn an_end_on_an_edge_and_a_step_that_comes_twice(rt: HostRuntime) -> Result<(), Fail> {
    let end_on_an_edge = [[0, 0], [8, 0], [8, 4], [4, 0], [0, 4]];
    assert!(rt; !resolved::<i32>(&rt, rt.alloc(), &end_on_an_edge)?);
    let twice = [[0, 0], [4, 0], [4, 4], [0, 0], [4, 0], [4, -4]];
    assert!(rt; !resolved::<i32>(&rt, rt.alloc(), &twice)?);
    Ok(())
}

#[test]
fn resolved_at_the_ends_of_the_range(rt: HostRuntime) {
    let far = 4611686018427387903i64;
    let (low, right) = (IntPoint::new(-far, -far), IntPoint::new(far, -far));
    let (up, high) = (IntPoint::new(-far, far), IntPoint::new(far, far));
    assert!(rt; in_range(&[low, right, high, up]));
    assert!(rt; is_resolved(&[low, right, high, up]));
    assert!(rt; in_range(&[low, high, right, up]));
    assert!(rt; !is_resolved(&[low, high, right, up]));
}
