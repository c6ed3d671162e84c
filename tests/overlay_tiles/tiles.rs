//! Shapes sliced by grids, on worked rows, at each coordinate type.

use crate::points::{are_tiles, corners_of, grid_of};
use overlay_geom::fill_rule::FillRule;
use overlay_geom::integer::OverlayInt;
use overlay_tiles::grid::{Grid, grid_fits};
use overlay_tiles::slice::slice_by_grid;
use small_points::contours::{Points, assert_in_range, contour_of};
use std::alloc::Global;
use std::process::Abort;
use std::test::Fail;

// Tests whether the contour is cut by a grid of cells of this width and height into these tiles.
fn tiles<I: OverlayInt + PartialEq + From<i16>>(
    rt: &impl Abort,
    alloc: Global,
    points: Points<'_>,
    width: i16,
    height: i16,
    wanted: &[Points<'_>],
) -> Result<bool, Fail> {
    let contour = contour_of::<I>(alloc, points)?;
    let grid = grid_of(width, height);
    assert_in_range(rt, &contour);
    assert!(rt; grid_fits(&contour, grid));
    let shapes = slice_by_grid(alloc, &contour, grid, FillRule::NonZero)?;
    Ok(are_tiles(alloc, &shapes, wanted)?)
}

fn square<I: OverlayInt + PartialEq + From<i16>>(
    rt: &impl Abort,
    alloc: Global,
) -> Result<(), Fail> {
    let square = &[(0, 0), (4, 0), (4, 4), (0, 4)];
    let four: &[Points<'_>] = &[
        &[(2, 0), (2, 2), (0, 2), (0, 0)],
        &[(2, 2), (2, 4), (0, 4), (0, 2)],
        &[(4, 0), (4, 2), (2, 2), (2, 0)],
        &[(4, 2), (4, 4), (2, 4), (2, 2)],
    ];
    let whole: &[Points<'_>] = &[&[(4, 0), (4, 4), (0, 4), (0, 0)]];
    assert!(rt; tiles::<I>(rt, alloc, square, 2, 2, four)?);
    assert!(rt; tiles::<I>(rt, alloc, square, 4, 4, whole)?);
    Ok(())
}

// An L whose foot the grid's upright line cuts, and a triangle whose hypotenuse is cut in rounded points.
fn others<I: OverlayInt + PartialEq + From<i16>>(
    rt: &impl Abort,
    alloc: Global,
) -> Result<(), Fail> {
    let bent = &[(0, 0), (3, 0), (3, 1), (1, 1), (1, 3), (0, 3)];
    let parts: &[Points<'_>] = &[
        &[(2, 0), (2, 1), (1, 1), (1, 3), (0, 3), (0, 0)],
        &[(3, 0), (3, 1), (2, 1), (2, 0)],
    ];
    let triangle = &[(0, 0), (3, 0), (0, 2)];
    let strips: &[Points<'_>] = &[
        &[(1, 0), (1, 1), (0, 2), (0, 0)],
        &[(2, 0), (2, 1), (1, 1), (1, 0)],
        &[(3, 0), (2, 1), (2, 0)],
    ];
    assert!(rt; tiles::<I>(rt, alloc, bent, 2, 5, parts)?);
    assert!(rt; tiles::<I>(rt, alloc, triangle, 1, 9, strips)?);
    assert!(rt; tiles::<I>(rt, alloc, &[], 1, 1, &[])?);
    assert!(rt; tiles::<I>(rt, alloc, &[(7, 7), (7, 9)], 1, 1, &[])?);
    Ok(())
}

// The square from one end of the range to the other is cut into its quarters.
fn ends_of_range<I: OverlayInt>(
    rt: &impl Abort,
    alloc: Global,
    least: I,
    middle: I,
    greatest: I,
) -> Result<(), Fail> {
    let corners = corners_of(alloc, least, greatest)?;
    assert_in_range(rt, &corners);
    let grid = Grid {
        width: greatest,
        height: greatest,
    };
    assert!(rt; grid_fits(&corners, grid));
    let shapes = slice_by_grid(alloc, &corners, grid, FillRule::NonZero)?;
    assert!(rt; shapes.len() == 4);
    for shape in &shapes {
        assert!(rt; shape.len() == 1);
        assert!(rt; shape[0].len() == 4);
        let mut has_middle = false;
        for point in &shape[0] {
            if point.x.compare(middle).is_eq() && point.y.compare(middle).is_eq() {
                has_middle = true;
            }
        }
        assert!(rt; has_middle);
    }
    Ok(())
}

#[test]
fn a_square_is_cut_into_tiles(rt: HostRuntime) -> Result<(), Fail> {
    square::<i16>(&rt, rt.alloc())?;
    square::<i32>(&rt, rt.alloc())?;
    square::<i64>(&rt, rt.alloc())
}

#[test]
fn other_shapes_are_cut_into_tiles(rt: HostRuntime) -> Result<(), Fail> {
    others::<i16>(&rt, rt.alloc())?;
    others::<i32>(&rt, rt.alloc())?;
    others::<i64>(&rt, rt.alloc())
}

#[test]
fn tiles_reach_to_the_ends_of_the_range(rt: HostRuntime) -> Result<(), Fail> {
    ends_of_range::<i16>(&rt, rt.alloc(), -16383, 0, 16383)?;
    ends_of_range::<i32>(&rt, rt.alloc(), -1073741823, 0, 1073741823)?;
    ends_of_range::<i64>(
        &rt,
        rt.alloc(),
        -4611686018427387903,
        0,
        4611686018427387903,
    )
}
