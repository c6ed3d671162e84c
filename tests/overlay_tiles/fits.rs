//! Grids that fit, at each coordinate type.

use crate::points::{corners_of, grid_of};
use overlay_geom::integer::OverlayInt;
use overlay_tiles::grid::{Grid, grid_fits};
use small_points::contours::{Points, assert_in_range, contour_of};
use std::alloc::Global;
use std::process::Abort;
use std::test::Fail;

// Tests whether a grid of cells of this width and height fits the contour.
fn fits<I: OverlayInt + From<i16>>(
    rt: &impl Abort,
    alloc: Global,
    points: Points<'_>,
    width: i16,
    height: i16,
) -> Result<bool, Fail> {
    let contour = contour_of::<I>(alloc, points)?;
    assert_in_range(rt, &contour);
    Ok(grid_fits(&contour, grid_of(width, height)))
}

fn most_lines<I: OverlayInt + From<i16>>(rt: &impl Abort, alloc: Global) -> Result<(), Fail> {
    let thousand = &[(0, 0), (1001, 0), (0, 1)];
    let more = &[(0, 0), (1002, 0), (0, 1)];
    let high = &[(-1, -501), (0, 501), (0, 0)];
    assert!(rt; fits::<I>(rt, alloc, thousand, 1, 1)?);
    assert!(rt; !fits::<I>(rt, alloc, more, 1, 1)?);
    assert!(rt; fits::<I>(rt, alloc, more, 2, 1)?);
    assert!(rt; !fits::<I>(rt, alloc, high, 1, 1)?);
    assert!(rt; fits::<I>(rt, alloc, high, 1, 2)?);
    Ok(())
}

fn cells_of_no_size<I: OverlayInt + From<i16>>(rt: &impl Abort, alloc: Global) -> Result<(), Fail> {
    let contour = &[(0, 0), (3, 0), (0, 2)];
    assert!(rt; !fits::<I>(rt, alloc, contour, 0, 1)?);
    assert!(rt; !fits::<I>(rt, alloc, contour, 1, 0)?);
    assert!(rt; !fits::<I>(rt, alloc, contour, -1, 1)?);
    assert!(rt; !fits::<I>(rt, alloc, &[], 0, 1)?);
    assert!(rt; fits::<I>(rt, alloc, &[], 1, 1)?);
    Ok(())
}

// Cells for the square from one end of the range to the other: the greatest cell fits, and a cell a little wider is out
// of range.
fn ends_of_range<I: OverlayInt>(
    rt: &impl Abort,
    alloc: Global,
    least: I,
    greatest: I,
    beyond: I,
) -> Result<(), Fail> {
    let corners = corners_of(alloc, least, greatest)?;
    assert_in_range(rt, &corners);
    for (width, height, wanted) in [
        (greatest, greatest, true),
        (beyond, greatest, false),
        (greatest, least, false),
    ] {
        assert!(rt; grid_fits(&corners, Grid { width, height }) == wanted);
    }
    Ok(())
}

#[test]
fn at_most_a_thousand_lines_fit(rt: HostRuntime) -> Result<(), Fail> {
    most_lines::<i16>(&rt, rt.alloc())?;
    most_lines::<i32>(&rt, rt.alloc())?;
    most_lines::<i64>(&rt, rt.alloc())
}

#[test]
fn a_cell_is_one_wide_and_high_or_more(rt: HostRuntime) -> Result<(), Fail> {
    cells_of_no_size::<i16>(&rt, rt.alloc())?;
    cells_of_no_size::<i32>(&rt, rt.alloc())?;
    cells_of_no_size::<i64>(&rt, rt.alloc())
}

#[test]
fn cells_end_with_the_range(rt: HostRuntime) -> Result<(), Fail> {
    ends_of_range::<i16>(&rt, rt.alloc(), -16383, 16383, 16384)?;
    ends_of_range::<i32>(&rt, rt.alloc(), -1073741823, 1073741823, 1073741824)?;
    ends_of_range::<i64>(
        &rt,
        rt.alloc(),
        -4611686018427387903,
        4611686018427387903,
        4611686018427387904,
    )
}
