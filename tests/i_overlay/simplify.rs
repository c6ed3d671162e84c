//! Simplification of contours, at each coordinate type.

use i_overlay::fill_rule::FillRule;
use i_overlay::overlay::{IntOverlayOptions, Overlay};
use i_overlay::solver::Solver;
use overlay_geom::error::OverlayError;
use overlay_geom::integer::OverlayInt;
use overlay_geom::point::in_range;
use small_points::contours::{Points, contour_of, shapes_of};
use std::alloc::Global;
use std::process::Abort;
use std::test::Fail;

// A square that runs clockwise, and how it is answered where it is reversed.
const CLOCKWISE: Points<'static> = &[(0, 0), (0, 10), (10, 10), (10, 0)];

const REVERSED: Points<'static> = &[(10, 0), (10, 10), (0, 10), (0, 0)];

// A square that runs counterclockwise.
const COUNTERCLOCKWISE: Points<'static> = &[(0, 0), (10, 0), (10, 10), (0, 10)];

// A square with a point on its lower side, and how it is answered without it.
const WITH_MIDDLE: Points<'static> = &[(0, 0), (2, 0), (4, 0), (4, 4), (0, 4)];

const WITHOUT_MIDDLE: Points<'static> = &[(0, 4), (0, 0), (4, 0), (4, 4)];

// A square with an area of 4.
const SMALL: Points<'static> = &[(0, 0), (2, 0), (2, 2), (0, 2)];

// Tests whether these options simplify the contour to these shapes; to none, where it stays as it is given.
fn is_answered<I: OverlayInt + PartialEq + From<i16>>(
    rt: &impl Abort,
    alloc: Global,
    options: IntOverlayOptions<I::WideUInt>,
    fill_rule: FillRule,
    points: Points<'_>,
    wanted: Option<&[&[Points<'_>]]>,
) -> Result<bool, OverlayError> {
    let contour = contour_of::<I>(alloc, points)?;
    assert!(rt; in_range(&contour));
    let mut overlay = Overlay::new_custom(alloc, 0, options, Solver::ABSOLUTE)?;
    let answer = overlay.simplify_contour(&contour, fill_rule)?;
    match wanted {
        None => Ok(answer.is_none()),
        Some(shapes) => Ok(answer == Some(shapes_of(alloc, shapes)?)),
    }
}

// Checks what the default options simplify the contour to.
fn check_contour<I: OverlayInt + PartialEq + From<i16>>(
    rt: &impl Abort,
    alloc: Global,
    fill_rule: FillRule,
    points: Points<'_>,
    wanted: Option<&[&[Points<'_>]]>,
) -> Result<(), OverlayError> {
    let options = IntOverlayOptions::default();
    assert!(rt; is_answered::<I>(rt, alloc, options, fill_rule, points, wanted)?);
    Ok(())
}

// A contour that is reversed, and a contour that visits a point twice.
fn check_more_contours<I: OverlayInt + PartialEq + From<i16>>(
    rt: &impl Abort,
    alloc: Global,
) -> Result<(), OverlayError> {
    check_contour::<I>(
        rt,
        alloc,
        FillRule::NonZero,
        &[(-100, -100), (0, 0), (101, 100)],
        Some(&[&[&[(101, 100), (0, 0), (-100, -100)]]]),
    )?;
    check_contour::<I>(
        rt,
        alloc,
        FillRule::NonZero,
        &[(0, 0), (-3, 2), (-3, -2), (0, 0), (-2, 1), (-2, -1)],
        Some(&[&[&[(-3, 2), (-3, -2), (0, 0)]]]),
    )
}

// Contours that are simple, and some that are not.
fn check_contours<I: OverlayInt + PartialEq + From<i16>>(
    rt: &impl Abort,
    alloc: Global,
) -> Result<(), OverlayError> {
    check_contour::<I>(rt, alloc, FillRule::Positive, CLOCKWISE, Some(&[]))?;
    check_contour::<I>(
        rt,
        alloc,
        FillRule::Negative,
        CLOCKWISE,
        Some(&[&[REVERSED]]),
    )?;
    check_contour::<I>(rt, alloc, FillRule::NonZero, COUNTERCLOCKWISE, None)?;
    check_contour::<I>(rt, alloc, FillRule::NonZero, &[(0, 0), (1, 1)], Some(&[]))?;
    check_contour::<I>(
        rt,
        alloc,
        FillRule::NonZero,
        WITH_MIDDLE,
        Some(&[&[WITHOUT_MIDDLE]]),
    )?;
    let keeping = IntOverlayOptions::keep_all_points();
    assert!(rt; is_answered::<I>(rt, alloc, keeping, FillRule::NonZero, WITH_MIDDLE, None)?);
    Ok(())
}

// A simple contour below the minimum area stays as it is given.
fn check_minimum<I: OverlayInt + PartialEq + From<i16>>(
    rt: &impl Abort,
    alloc: Global,
    min_output_area: I::WideUInt,
) -> Result<(), OverlayError> {
    let options = IntOverlayOptions {
        min_output_area,
        ..IntOverlayOptions::default()
    };
    assert!(rt; is_answered::<I>(rt, alloc, options, FillRule::NonZero, SMALL, None)?);
    Ok(())
}

#[test]
fn simplified_contours_at_i16(rt: HostRuntime) -> Result<(), Fail> {
    check_contours::<i16>(&rt, rt.alloc())?;
    check_more_contours::<i16>(&rt, rt.alloc())?;
    Ok(check_minimum::<i16>(&rt, rt.alloc(), 5)?)
}

#[test]
fn simplified_contours_at_i32(rt: HostRuntime) -> Result<(), Fail> {
    check_contours::<i32>(&rt, rt.alloc())?;
    check_more_contours::<i32>(&rt, rt.alloc())?;
    Ok(check_minimum::<i32>(&rt, rt.alloc(), 5)?)
}

#[test]
fn simplified_contours_at_i64(rt: HostRuntime) -> Result<(), Fail> {
    check_contours::<i64>(&rt, rt.alloc())?;
    check_more_contours::<i64>(&rt, rt.alloc())?;
    Ok(check_minimum::<i64>(&rt, rt.alloc(), 5)?)
}
