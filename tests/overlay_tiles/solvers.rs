//! Two needles in one tile of a grid, which rounds do not settle, and snap rounding does, at each coordinate type.

use crate::points::{are_tiles, grid_of};
use overlay_geom::error::OverlayError;
use overlay_geom::fill_rule::FillRule;
use overlay_geom::integer::OverlayInt;
use overlay_geom::path::IntShape;
use overlay_geom::solver::Solver;
use overlay_tiles::grid::grid_fits;
use overlay_tiles::slice::{slice_by_grid, slice_by_grid_with_solver};
use small_points::contours::{Points, assert_in_range, contour_of};
use std::alloc::Global;
use std::process::Abort;
use std::test::Fail;

// The needles, whose long sides cross so flatly that each round moves their crossing on by one unit.
const FIRST: Points<'static> = &[(3, 66), (1, 132), (3, 0)];

const SECOND: Points<'static> = &[(2, 66), (1, 133), (0, 66)];

// Their union, where their crossings are rounded to (1, 131), by hand.
const UNION: &[Points<'static>] = &[&[(2, 66), (3, 0), (3, 66), (1, 131), (0, 66)]];

// The needles as the contours of a shape.
fn needles<I: OverlayInt + From<i16>>(
    rt: &impl Abort,
    alloc: Global,
) -> Result<IntShape<I, Global>, OverlayError> {
    let mut shape = Vec::new(alloc);
    shape.push(contour_of::<I>(alloc, FIRST)?)?;
    shape.push(contour_of::<I>(alloc, SECOND)?)?;
    assert_in_range(rt, &shape);
    Ok(shape)
}

// They lie in one tile, which has their union.
fn one_tile<I: OverlayInt + PartialEq + From<i16>>(
    rt: &impl Abort,
    alloc: Global,
) -> Result<(), Fail> {
    let shape = needles::<I>(rt, alloc)?;
    let grid = grid_of(16, 256);
    assert!(rt; grid_fits(&shape, grid));
    let rule = FillRule::NonZero;
    let refused = slice_by_grid(alloc, &shape, grid, rule);
    assert!(rt; matches!(refused, Err(OverlayError::NotSettled)));
    let refused = slice_by_grid_with_solver(alloc, &shape, grid, rule, Solver::ABSOLUTE);
    assert!(rt; matches!(refused, Err(OverlayError::NotSettled)));
    let shapes = slice_by_grid_with_solver(alloc, &shape, grid, rule, Solver::SNAPPED)?;
    assert!(rt; are_tiles(alloc, &shapes, UNION)?);
    Ok(())
}

#[test]
fn snapped_needles_lie_in_one_tile(rt: HostRuntime) -> Result<(), Fail> {
    one_tile::<i16>(&rt, rt.alloc())?;
    one_tile::<i32>(&rt, rt.alloc())?;
    one_tile::<i64>(&rt, rt.alloc())
}
