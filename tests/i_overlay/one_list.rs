//! Contours in a flat list, at each coordinate type.

use crate::rows::builder_of;
use crate::shapes::TOUCHING_HOLE;
use i_overlay::fill_rule::FillRule;
use i_overlay::overlay::{IntOverlayOptions, Overlay};
use i_overlay::overlay_rule::OverlayRule;
use overlay_geom::error::OverlayError;
use overlay_geom::flat::contours::FlatContoursBuffer;
use overlay_geom::flat::shapes::FlatShapesBuffer;
use overlay_geom::integer::OverlayInt;
use small_points::contours::{Points, contour_of};
use std::alloc::Global;
use std::process::Abort;
use std::test::Fail;

// Checks that the buffer holds a single contour, with these points.
fn check_one<I: OverlayInt + PartialEq + From<i16>>(
    rt: &impl Abort,
    alloc: Global,
    buffer: &FlatContoursBuffer<I, Global>,
    points: Points<'_>,
) -> Result<(), OverlayError> {
    let wanted = contour_of::<I>(alloc, points)?;
    assert!(rt; buffer.points == wanted);
    assert!(rt; buffer.ranges.len() == 1);
    assert!(rt; *buffer.as_first_contour() == *wanted);
    Ok(())
}

// Checks that the old content of the buffer is gone, and that the contour is there as it was walked.
fn check_into<I: OverlayInt + PartialEq + From<i16>>(
    rt: &impl Abort,
    alloc: Global,
) -> Result<(), OverlayError> {
    let mut output: FlatContoursBuffer<I, Global> = FlatContoursBuffer::default(alloc)?;
    output.add_contour(&contour_of::<I>(alloc, &[(1, 1), (2, 2), (3, 1)])?)?;
    let mut overlay: Overlay<I, Global> = builder_of(
        rt,
        alloc,
        &TOUCHING_HOLE,
        IntOverlayOptions::default(),
    )?;
    overlay.overlay_into(OverlayRule::Subject, FillRule::EvenOdd, &mut output)?;
    check_one(rt, alloc, &output, TOUCHING_HOLE.wanted[0][0])
}

// Checks that a builder that is used up gives the shape in one list.
fn check_used_up<I: OverlayInt + PartialEq + From<i16>>(
    rt: &impl Abort,
    alloc: Global,
) -> Result<(), OverlayError> {
    let overlay: Overlay<I, Global> = builder_of(
        rt,
        alloc,
        &TOUCHING_HOLE,
        IntOverlayOptions::default(),
    )?;
    let flat: FlatShapesBuffer<I, Global> = overlay.into_flat_shapes(
        OverlayRule::Subject,
        FillRule::EvenOdd,
    )?;
    let wanted = contour_of::<I>(alloc, TOUCHING_HOLE.wanted[0][0])?;
    assert!(rt; flat.points == wanted);
    assert!(rt; flat.contour_ranges.len() == 1 && flat.shape_ranges.len() == 1);
    let shapes = flat.to_shapes()?;
    assert!(rt; shapes.len() == 1 && shapes[0].len() == 1 && shapes[0][0] == wanted);
    Ok(())
}

#[test]
fn shapes_of_a_used_builder_at_i16(rt: HostRuntime) -> Result<(), Fail> {
    Ok(check_used_up::<i16>(&rt, rt.alloc())?)
}

#[test]
fn shapes_of_a_used_builder_at_i32(rt: HostRuntime) -> Result<(), Fail> {
    Ok(check_used_up::<i32>(&rt, rt.alloc())?)
}

#[test]
fn shapes_of_a_used_builder_at_i64(rt: HostRuntime) -> Result<(), Fail> {
    Ok(check_used_up::<i64>(&rt, rt.alloc())?)
}

#[test]
fn contours_at_i16(rt: HostRuntime) -> Result<(), Fail> {
    Ok(check_into::<i16>(&rt, rt.alloc())?)
}

#[test]
fn contours_at_i32(rt: HostRuntime) -> Result<(), Fail> {
    Ok(check_into::<i32>(&rt, rt.alloc())?)
}

#[test]
fn contours_at_i64(rt: HostRuntime) -> Result<(), Fail> {
    Ok(check_into::<i64>(&rt, rt.alloc())?)
}
