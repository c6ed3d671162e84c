//! Strings clipped by a shape, on worked rows, at each coordinate type.

use crate::rules::{IN_AND_OUT, INSIDE, JOINED, OUTSIDE, PARTED, SQUARE, WITH_BOUNDARY};
use overlay_geom::fill_rule::FillRule;
use overlay_geom::integer::OverlayInt;
use overlay_geom::path::IntPath;
use overlay_string::clip_rule::ClipRule;
use overlay_string::string_overlay::StringOverlay;
use small_points::contours::{Points, assert_in_range, contour_of, shape_of};
use std::alloc::Global;
use std::process::Abort;
use std::test::Fail;

// The paths that are left of strings, clipped by a contour.
fn clipped<I: OverlayInt + From<i16>>(
    rt: &impl Abort,
    alloc: Global,
    contour: Points<'_>,
    strings: &[Points<'_>],
    rule: ClipRule,
) -> Result<Vec<IntPath<I, Global>, Global>, Fail> {
    let shape = contour_of::<I>(alloc, contour)?;
    let strings = shape_of::<I>(alloc, strings)?;
    assert_in_range(rt, &shape);
    assert_in_range(rt, &strings);
    let overlay = StringOverlay::from_shape_and_string(alloc, &shape, &strings)?;
    Ok(overlay.clip_string_lines(FillRule::NonZero, rule)?)
}

// Checks them.
fn check<I: OverlayInt + PartialEq + From<i16>>(
    rt: &impl Abort,
    alloc: Global,
    contour: Points<'_>,
    strings: &[Points<'_>],
    rule: ClipRule,
    wanted: &[Points<'_>],
) -> Result<(), Fail> {
    let paths = clipped::<I>(rt, alloc, contour, strings, rule)?;
    let wanted = shape_of::<I>(alloc, wanted)?;
    assert!(rt; paths == wanted);
    Ok(())
}

// One line through the square, or along its side, or without a shape.
fn lines<I: OverlayInt + PartialEq + From<i16>>(
    rt: &impl Abort,
    alloc: Global,
) -> Result<(), Fail> {
    let line: &[Points<'_>] = &[&[(0, -15), (0, 15)]];
    check::<I>(rt, alloc, SQUARE, line, INSIDE, &[&[(0, -10), (0, 10)]])?;
    let rest: &[Points<'_>] = &[&[(0, -15), (0, -10)], &[(0, 10), (0, 15)]];
    check::<I>(rt, alloc, SQUARE, line, OUTSIDE, rest)?;
    let both: &[Points<'_>] = &[&[(0, -15), (0, 15)], &[(0, 15), (0, -15)]];
    check::<I>(
        rt,
        alloc,
        SQUARE,
        both,
        INSIDE,
        &[&[(0, -10), (0, 10), (0, -10)]],
    )?;
    let side: &[Points<'_>] = &[&[(-10, -15), (-10, 15)]];
    check::<I>(rt, alloc, SQUARE, side, INSIDE, &[])?;
    check::<I>(
        rt,
        alloc,
        SQUARE,
        side,
        WITH_BOUNDARY,
        &[&[(-10, -10), (-10, 10)]],
    )?;
    check::<I>(
        rt,
        alloc,
        &[],
        &[&[(0, 0), (10, 0)]],
        OUTSIDE,
        &[&[(0, 0), (10, 0)]],
    )
}

// A path in and out of the square.
fn path<I: OverlayInt + PartialEq + From<i16>>(rt: &impl Abort, alloc: Global) -> Result<(), Fail> {
    check::<I>(rt, alloc, SQUARE, &[IN_AND_OUT], INSIDE, PARTED)?;
    check::<I>(rt, alloc, SQUARE, &[IN_AND_OUT], WITH_BOUNDARY, JOINED)
}

// Lines that meet in one point inside: the first edge in order goes on.
fn fork<I: OverlayInt + PartialEq + From<i16>>(rt: &impl Abort, alloc: Global) -> Result<(), Fail> {
    let strings: &[Points<'_>] = &[&[(0, 0), (5, 5)], &[(-5, 0), (0, 0)], &[(0, 0), (5, -5)]];
    let wanted: &[Points<'_>] = &[&[(-5, 0), (0, 0), (5, -5)], &[(0, 0), (5, 5)]];
    check::<I>(rt, alloc, SQUARE, strings, INSIDE, wanted)
}

// Shapes with a single corner, and with a notch; and a path along the side of a shape.
fn corners<I: OverlayInt + PartialEq + From<i16>>(
    rt: &impl Abort,
    alloc: Global,
) -> Result<(), Fail> {
    let corner: Points<'_> = &[(-1, 0), (1, 0), (0, 1)];
    let line: &[Points<'_>] = &[&[(0, -1), (0, 2)]];
    assert!(rt; clipped::<I>(rt, alloc, corner, line, INSIDE)?.len() == 1);
    assert!(rt; clipped::<I>(rt, alloc, corner, line, OUTSIDE)?.len() == 2);
    let square: Points<'_> = &[(-1, -1), (1, -1), (1, 1), (-1, 1)];
    let side: &[Points<'_>] = &[&[(-1, -1), (1, -1)]];
    assert!(rt; clipped::<I>(rt, alloc, square, side, INSIDE)?.is_empty());
    assert!(rt; clipped::<I>(rt, alloc, square, side, WITH_BOUNDARY)?.len() == 1);
    let notch: Points<'_> = &[(0, 0), (2, 0), (2, 2), (1, 0), (0, 2)];
    assert!(rt; clipped::<I>(rt, alloc, notch, &[&[(-3, 2), (3, 2)]], INSIDE)?.is_empty());
    let roof: Points<'_> = &[(-2, -2), (2, -2), (3, 0), (-3, 0)];
    let round: &[Points<'_>] = &[&[(-4, 1), (-2, -2), (2, -2), (4, 1)]];
    assert!(rt; clipped::<I>(rt, alloc, roof, round, INSIDE)?.is_empty());
    assert!(rt; clipped::<I>(rt, alloc, roof, round, WITH_BOUNDARY)?.len() == 1);
    Ok(())
}

// All of these, at a coordinate type.
fn rows<I: OverlayInt + PartialEq + From<i16>>(rt: &impl Abort, alloc: Global) -> Result<(), Fail> {
    lines::<I>(rt, alloc)?;
    path::<I>(rt, alloc)?;
    fork::<I>(rt, alloc)?;
    corners::<I>(rt, alloc)
}

#[test]
fn worked_rows(rt: HostRuntime) -> Result<(), Fail> {
    rows::<i16>(&rt, rt.alloc())?;
    rows::<i32>(&rt, rt.alloc())?;
    rows::<i64>(&rt, rt.alloc())
}
