//! Strings clipped in one call, on the rows of each call, at each coordinate type.

use crate::points::line_of;
use crate::rules::{
    IN_AND_OUT, INSIDE, JOINED, NOT_WITHIN, OUTSIDE, PARTED, SQUARE, WITH_BOUNDARY,
};
use overlay_geom::fill_rule::FillRule;
use overlay_geom::integer::OverlayInt;
use overlay_geom::path::{IntLine, IntPath};
use overlay_geom::point::in_range;
use overlay_geom::resource::borrowed::BorrowedContours;
use overlay_string::clip::IntClip;
use overlay_string::clip_rule::ClipRule;
use overlay_string::lines::BorrowedLines;
use small_points::contours::{Points, assert_in_range, contour_of, shape_of};
use std::alloc::Global;
use std::process::Abort;
use std::test::Fail;

// Lines through the middle of the square and along its left side.
const MIDDLE: Points<'static> = &[(0, -15), (0, 15)];

const SIDE: Points<'static> = &[(-10, -15), (-10, 15)];

// A triangle, and a line through its top.
const TRIANGLE: Points<'static> = &[(-1, 0), (1, 0), (0, 1)];

const UPRIGHT: Points<'static> = &[(0, -1), (0, 2)];

// A path that runs along the lower side of a trapezium, and leaves it at both ends.
const TRAPEZIUM: Points<'static> = &[(-2, -2), (2, -2), (3, 0), (-3, 0)];

const BOWL: Points<'static> = &[(-4, 1), (-2, -2), (2, -2), (4, 1)];

// The parts of a line that are left.
fn by_line<I: OverlayInt + From<i16>>(
    rt: &impl Abort,
    alloc: Global,
    contour: Points<'_>,
    line: Points<'_>,
    rule: ClipRule,
) -> Result<Vec<IntPath<I, Global>, Global>, Fail> {
    assert!(rt; line.len() == 2);
    let shape = contour_of::<I>(alloc, contour)?;
    assert_in_range(rt, &shape);
    let line: IntLine<I> = line_of(line[0], line[1]);
    assert!(rt; in_range(&line));
    Ok(shape.clip_line(alloc, line, FillRule::NonZero, rule)?)
}

// The parts of several lines that are left.
fn by_lines<I: OverlayInt + From<i16>>(
    rt: &impl Abort,
    alloc: Global,
    contour: Points<'_>,
    lines: &[IntLine<I>],
) -> Result<Vec<IntPath<I, Global>, Global>, Fail> {
    let shape = contour_of::<I>(alloc, contour)?;
    assert_in_range(rt, &shape);
    let borrowed = BorrowedLines { lines };
    assert_in_range(rt, &borrowed);
    Ok(shape.clip_lines(alloc, borrowed.lines, FillRule::NonZero, INSIDE)?)
}

// The parts of a path that are left.
fn by_path<I: OverlayInt + From<i16>>(
    rt: &impl Abort,
    alloc: Global,
    contour: Points<'_>,
    path: Points<'_>,
    rule: ClipRule,
) -> Result<Vec<IntPath<I, Global>, Global>, Fail> {
    let shape = contour_of::<I>(alloc, contour)?;
    assert_in_range(rt, &shape);
    let path = contour_of::<I>(alloc, path)?;
    assert!(rt; in_range(&path));
    Ok(shape.clip_path(alloc, &path, FillRule::NonZero, rule)?)
}

// The parts of listed paths that are left inside the square.
fn by_paths<I: OverlayInt + From<i16>>(
    rt: &impl Abort,
    alloc: Global,
    paths: &[Points<'_>],
) -> Result<Vec<IntPath<I, Global>, Global>, Fail> {
    let shape = contour_of::<I>(alloc, SQUARE)?;
    assert_in_range(rt, &shape);
    let paths = shape_of::<I>(alloc, paths)?;
    let borrowed = BorrowedContours { contours: &paths };
    assert_in_range(rt, &borrowed);
    Ok(shape.clip_paths(alloc, borrowed.contours, FillRule::NonZero, INSIDE)?)
}

// The parts of a resource's paths that are left inside the square.
fn by_source<I: OverlayInt + From<i16>>(
    rt: &impl Abort,
    alloc: Global,
    paths: &[Points<'_>],
) -> Result<Vec<IntPath<I, Global>, Global>, Fail> {
    let shape = contour_of::<I>(alloc, SQUARE)?;
    assert_in_range(rt, &shape);
    let paths = shape_of::<I>(alloc, paths)?;
    assert_in_range(rt, &paths);
    Ok(shape.clip_source(alloc, &paths, FillRule::NonZero, INSIDE)?)
}

// Tests whether these paths are left of a line.
fn leaves<I: OverlayInt + PartialEq + From<i16>>(
    rt: &impl Abort,
    alloc: Global,
    contour: Points<'_>,
    line: Points<'_>,
    rule: ClipRule,
    wanted: &[Points<'_>],
) -> Result<bool, Fail> {
    let paths = by_line::<I>(rt, alloc, contour, line, rule)?;
    Ok(paths == shape_of(alloc, wanted)?)
}

// Tests whether these are left of a path.
fn leaves_of_path<I: OverlayInt + PartialEq + From<i16>>(
    rt: &impl Abort,
    alloc: Global,
    contour: Points<'_>,
    path: Points<'_>,
    rule: ClipRule,
    wanted: &[Points<'_>],
) -> Result<bool, Fail> {
    let paths = by_path::<I>(rt, alloc, contour, path, rule)?;
    Ok(paths == shape_of(alloc, wanted)?)
}

// Tests whether the first edge in order goes on where lines meet in one point.
fn forks<I: OverlayInt + PartialEq + From<i16>>(
    rt: &impl Abort,
    alloc: Global,
) -> Result<bool, Fail> {
    let lines = [
        line_of((0, 0), (5, 5)),
        line_of((-5, 0), (0, 0)),
        line_of((0, 0), (5, -5)),
    ];
    let paths = by_lines::<I>(rt, alloc, SQUARE, &lines)?;
    let wanted: &[Points<'_>] = &[&[(-5, 0), (0, 0), (5, -5)], &[(0, 0), (5, 5)]];
    Ok(paths == shape_of(alloc, wanted)?)
}

// Tests whether a line that is given in both directions is passed in both.
fn turns_back<I: OverlayInt + PartialEq + From<i16>>(
    rt: &impl Abort,
    alloc: Global,
) -> Result<bool, Fail> {
    let lines = [line_of((0, -15), (0, 15)), line_of((0, 15), (0, -15))];
    let paths = by_lines::<I>(rt, alloc, SQUARE, &lines)?;
    Ok(paths == shape_of(alloc, &[&[(0, -10), (0, 10), (0, -10)]])?)
}

// Tests whether part of a path in a list is left, and nothing of a path at a distance.
fn leaves_of_paths<I: OverlayInt + PartialEq + From<i16>>(
    rt: &impl Abort,
    alloc: Global,
) -> Result<bool, Fail> {
    let paths = by_paths::<I>(rt, alloc, &[MIDDLE, &[(20, 0), (30, 0)]])?;
    Ok(paths == shape_of(alloc, &[&[(0, -10), (0, 10)]])?)
}

// Tests whether the same is left of them as a resource.
fn leaves_of_source<I: OverlayInt + PartialEq + From<i16>>(
    rt: &impl Abort,
    alloc: Global,
) -> Result<bool, Fail> {
    let paths = by_source::<I>(rt, alloc, &[MIDDLE, &[(20, 0), (30, 0)]])?;
    Ok(paths == shape_of(alloc, &[&[(0, -10), (0, 10)]])?)
}

// Tests whether a line outside is left at both ends.
fn leaves_ends<I: OverlayInt + PartialEq + From<i16>>(
    rt: &impl Abort,
    alloc: Global,
) -> Result<bool, Fail> {
    let wanted: &[Points<'_>] = &[&[(0, -15), (0, -10)], &[(0, 10), (0, 15)]];
    leaves::<I>(rt, alloc, SQUARE, MIDDLE, OUTSIDE, wanted)
}

// Tests whether a line passes a notch at its top, and nothing is left of it.
fn passes_a_notch<I: OverlayInt + PartialEq + From<i16>>(
    rt: &impl Abort,
    alloc: Global,
) -> Result<bool, Fail> {
    let notch: Points<'_> = &[(0, 0), (2, 0), (2, 2), (1, 0), (0, 2)];
    leaves::<I>(rt, alloc, notch, &[(-3, 2), (3, 2)], INSIDE, &[])
}

// Tests whether a line that is a side of a square is left with the boundary, and not without it.
fn lies_on_a_side<I: OverlayInt + PartialEq + From<i16>>(
    rt: &impl Abort,
    alloc: Global,
) -> Result<bool, Fail> {
    let square: Points<'_> = &[(-1, -1), (1, -1), (1, 1), (-1, 1)];
    let side: Points<'_> = &[(-1, -1), (1, -1)];
    let without = leaves::<I>(rt, alloc, square, side, INSIDE, &[])?;
    let with = leaves::<I>(rt, alloc, square, side, WITH_BOUNDARY, &[side])?;
    Ok(without && with)
}

// Lines through the middle of a square, along its side, and through the top of a triangle.
fn lines<I: OverlayInt + PartialEq + From<i16>>(
    rt: &impl Abort,
    alloc: Global,
) -> Result<(), Fail> {
    let on_side: &[Points<'_>] = &[&[(-10, -10), (-10, 10)]];
    let past: &[Points<'_>] = &[&[(-10, -15), (-10, -10), (-10, 10), (-10, 15)]];
    let above: &[Points<'_>] = &[&[(0, -1), (0, 0)], &[(0, 1), (0, 2)]];
    assert!(rt; leaves::<I>(rt, alloc, SQUARE, MIDDLE, INSIDE, &[&[(0, -10), (0, 10)]])?);
    assert!(rt; leaves_ends::<I>(rt, alloc)?);
    assert!(rt; leaves::<I>(rt, alloc, SQUARE, SIDE, INSIDE, &[])?);
    assert!(rt; leaves::<I>(rt, alloc, SQUARE, SIDE, WITH_BOUNDARY, on_side)?);
    assert!(rt; leaves::<I>(rt, alloc, SQUARE, SIDE, NOT_WITHIN, past)?);
    assert!(rt; leaves::<I>(rt, alloc, TRIANGLE, UPRIGHT, INSIDE, &[&[(0, 0), (0, 1)]])?);
    assert!(rt; leaves::<I>(rt, alloc, TRIANGLE, UPRIGHT, OUTSIDE, above)?);
    assert!(rt; passes_a_notch::<I>(rt, alloc)?);
    assert!(rt; lies_on_a_side::<I>(rt, alloc)?);
    assert!(rt;
        leaves::<I>(
            rt,
            alloc,
            &[],
            &[(0, 0), (10, 0)],
            OUTSIDE,
            &[&[(0, 0), (10, 0)]]
        )?
    );
    Ok(())
}

// Paths.
fn paths<I: OverlayInt + PartialEq + From<i16>>(
    rt: &impl Abort,
    alloc: Global,
) -> Result<(), Fail> {
    let through: Points<'_> = &[(0, -15), (0, 0), (0, 15)];
    let by_three: &[Points<'_>] = &[&[(0, -10), (0, 0), (0, 10)]];
    let bottom: &[Points<'_>] = &[&[(-2, -2), (2, -2)]];
    assert!(rt; leaves_of_path::<I>(rt, alloc, SQUARE, through, INSIDE, by_three)?);
    assert!(rt; leaves_of_path::<I>(rt, alloc, SQUARE, IN_AND_OUT, INSIDE, PARTED)?);
    assert!(rt; leaves_of_path::<I>(rt, alloc, SQUARE, IN_AND_OUT, WITH_BOUNDARY, JOINED)?);
    assert!(rt; leaves_of_path::<I>(rt, alloc, TRAPEZIUM, BOWL, INSIDE, &[])?);
    assert!(rt; leaves_of_path::<I>(rt, alloc, TRAPEZIUM, BOWL, WITH_BOUNDARY, bottom)?);
    Ok(())
}

// Several lines, or several paths.
fn strings<I: OverlayInt + PartialEq + From<i16>>(
    rt: &impl Abort,
    alloc: Global,
) -> Result<(), Fail> {
    assert!(rt; forks::<I>(rt, alloc)?);
    assert!(rt; turns_back::<I>(rt, alloc)?);
    assert!(rt; leaves_of_paths::<I>(rt, alloc)?);
    assert!(rt; leaves_of_source::<I>(rt, alloc)?);
    Ok(())
}

#[test]
fn clipped_lines(rt: HostRuntime) -> Result<(), Fail> {
    lines::<i16>(&rt, rt.alloc())?;
    lines::<i32>(&rt, rt.alloc())?;
    lines::<i64>(&rt, rt.alloc())
}

#[test]
fn clipped_paths(rt: HostRuntime) -> Result<(), Fail> {
    paths::<i16>(&rt, rt.alloc())?;
    paths::<i32>(&rt, rt.alloc())?;
    paths::<i64>(&rt, rt.alloc())
}

#[test]
fn clipped_strings(rt: HostRuntime) -> Result<(), Fail> {
    strings::<i16>(&rt, rt.alloc())?;
    strings::<i32>(&rt, rt.alloc())?;
    strings::<i64>(&rt, rt.alloc())
}
