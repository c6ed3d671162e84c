//! Points off the edges, at each width.

use crate::asked::{ask_contour, ask_shape, points};
use overlay_geom::integer::OverlayInt;
use overlay_geom::point::IntPoint;
use std::alloc::Global;
use std::process::Abort;
use std::test::Fail;

// A square without its upper left quarter.
const NOTCHED: [[i16; 2]; 6] = [[0, 0], [10, 0], [10, 10], [5, 10], [5, 5], [0, 5]];

fn notched<I: OverlayInt + From<i16>>(rt: &impl Abort, alloc: Global) -> Result<(), Fail> {
    let contour = points::<I>(alloc, &NOTCHED)?;
    let asked = points::<I>(alloc, &[[5, 2], [4, 7], [6, 7], [5, 12]])?;
    let answers = ask_contour(rt, alloc, &contour, &asked)?;
    assert!(rt; answers.inside.as_slice() == [true, false, true, false].as_slice());
    Ok(())
}

fn with_a_hole<I: OverlayInt + From<i16>>(rt: &impl Abort, alloc: Global) -> Result<(), Fail> {
    let mut shape = Vec::new(alloc);
    shape.push(points::<I>(alloc, &[[0, 0], [10, 0], [10, 10], [0, 10]])?)?;
    shape.push(points::<I>(alloc, &[[3, 7], [7, 7], [7, 3], [3, 3]])?)?;
    let asked = points::<I>(alloc, &[[5, 5], [1, 1], [2, 5], [5, 5], [20, 20]])?;
    let answers = ask_shape(rt, alloc, &shape, &asked)?;
    assert!(rt; answers.inside.as_slice() == [false, true, true, false, false].as_slice());
    Ok(())
}

// It passes (4, 0) straight, and touches it.
fn touching<I: OverlayInt + From<i16>>(rt: &impl Abort, alloc: Global) -> Result<(), Fail> {
    let contour = points::<I>(alloc, &[[0, 0], [4, 0], [8, 0], [8, 4], [4, 0], [0, 4]])?;
    let asked = points::<I>(alloc, &[[1, 1], [7, 1], [4, 2], [7, 4]])?;
    let answers = ask_contour(rt, alloc, &contour, &asked)?;
    assert!(rt; answers.inside.as_slice() == [true, true, false, false].as_slice());
    Ok(())
}

#[test]
fn points_off_the_edges(rt: HostRuntime) -> Result<(), Fail> {
    notched::<i16>(&rt, rt.alloc())?;
    notched::<i32>(&rt, rt.alloc())?;
    notched::<i64>(&rt, rt.alloc())?;
    with_a_hole::<i16>(&rt, rt.alloc())?;
    with_a_hole::<i32>(&rt, rt.alloc())?;
    with_a_hole::<i64>(&rt, rt.alloc())?;
    touching::<i16>(&rt, rt.alloc())?;
    touching::<i32>(&rt, rt.alloc())?;
    touching::<i64>(&rt, rt.alloc())
}

#[test]
fn no_points_and_a_contour_of_one_point(rt: HostRuntime) -> Result<(), Fail> {
    let contour = points::<i32>(rt.alloc(), &NOTCHED)?;
    let answers = ask_contour(&rt, rt.alloc(), &contour, &[])?;
    assert!(rt; answers.inside.is_empty() && answers.locations.is_empty());
    let one = points::<i32>(rt.alloc(), &[[3, 3]])?;
    let asked = points::<i32>(rt.alloc(), &[[3, 3], [3, 4]])?;
    let answers = ask_contour(&rt, rt.alloc(), &one, &asked)?;
    assert!(rt; answers.inside.as_slice() == [false, false].as_slice());
    Ok(())
}

#[test]
fn points_at_the_ends_of_the_range(rt: HostRuntime) -> Result<(), Fail> {
    let far = 4611686018427387903i64;
    let mut contour = Vec::new(rt.alloc());
    contour.push(IntPoint::new(-far, -far))?;
    contour.push(IntPoint::new(far, -far))?;
    contour.push(IntPoint::new(far, far))?;
    let asked = [
        IntPoint::new(far - 1, far - 2),
        IntPoint::new(far - 2, far - 1),
        IntPoint::new(-far, far),
    ];
    let answers = ask_contour(&rt, rt.alloc(), &contour, &asked)?;
    assert!(rt; answers.inside.as_slice() == [true, false, false].as_slice());
    Ok(())
}
