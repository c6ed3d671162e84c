//! One call on two squares that overlap in a corner, at each coordinate type.

use i_overlay::fill_rule::FillRule;
use i_overlay::overlay_rule::OverlayRule;
use i_overlay::single::SingleIntOverlay;
use overlay_geom::error::OverlayError;
use overlay_geom::integer::OverlayInt;
use small_points::contours::{assert_in_range, contour_of, shape_of, shapes_of};
use std::alloc::Global;
use std::process::Abort;
use std::test::Fail;

// The lower square without the upper. With the two exchanged, it is the upper without the lower.
fn check_difference<I: OverlayInt + PartialEq + From<i16>>(
    rt: &impl Abort,
    alloc: Global,
) -> Result<(), OverlayError> {
    let subj = contour_of::<I>(alloc, &[(0, 0), (4, 0), (4, 4), (0, 4)])?;
    let clip = shape_of::<I>(alloc, &[&[(2, 2), (6, 2), (6, 6), (2, 6)]])?;
    assert_in_range(rt, &subj);
    assert_in_range(rt, &clip);
    let shapes = subj.overlay(alloc, &clip, OverlayRule::Difference, FillRule::NonZero)?;
    let contour = [(0, 4), (0, 0), (4, 0), (4, 2), (2, 2), (2, 4)];
    let wanted = shapes_of(alloc, &[&[&contour]])?;
    assert!(rt; shapes == wanted);
    Ok(())
}

#[test]
fn difference_at_i16(rt: HostRuntime) -> Result<(), Fail> {
    Ok(check_difference::<i16>(&rt, rt.alloc())?)
}

#[test]
fn difference_at_i32(rt: HostRuntime) -> Result<(), Fail> {
    Ok(check_difference::<i32>(&rt, rt.alloc())?)
}

#[test]
fn difference_at_i64(rt: HostRuntime) -> Result<(), Fail> {
    Ok(check_difference::<i64>(&rt, rt.alloc())?)
}
