//! Points in the comb, in squares, and in a prepared shape.

use crate::figures::{COUNT, comb, comb_of, coordinate, corner_at, lone_squares, point, squares};
use i_overlay::fill_rule::FillRule;
use i_overlay::i_float::int::point::IntPoint;
use i_overlay::integer::{is_resolved, is_resolved_in};
use i_overlay::point_location::PointLocation::{Boundary, Inside, Outside};
use i_overlay::point_location::{IntPointContainment, PointLocation, PreparedShape};
use i_overlay::solver::Solver;
use std::alloc::Global;
use std::process::Abort;
use std::test::Fail;

// Points, and where they lie.
#[derive(Drop)]
struct Asked {
    points: Vec<IntPoint<i32>, Global>,
    wanted: Vec<PointLocation, Global>,
}

// Of each tooth a point inside, one in the gap behind it, and one on its left side.
fn in_comb(alloc: Global) -> Result<Asked, Fail> {
    let (mut points, mut wanted) = (Vec::new(alloc), Vec::new(alloc));
    for number in 0..COUNT {
        let x = 4 * coordinate(number);
        points.extend_from_slice(&[point(x + 1, 5), point(x + 3, 5), point(x, 5)])?;
        wanted.extend_from_slice(&[Inside, Outside, Boundary])?;
    }
    Ok(Asked { points, wanted })
}

// Of each square of the side 4 a point inside, one outside, and its corner.
fn in_squares(alloc: Global) -> Result<Asked, Fail> {
    let (mut points, mut wanted) = (Vec::new(alloc), Vec::new(alloc));
    for number in 0..COUNT {
        let corner = corner_at(number);
        let (x, y) = (corner.x, corner.y);
        points.extend_from_slice(&[point(x + 1, y + 1), point(x + 5, y + 1), corner])?;
        wanted.extend_from_slice(&[Inside, Outside, Boundary])?;
    }
    Ok(Asked { points, wanted })
}

// Tests whether they lie so, by both calls. One of them leaves open whether a point on an edge is contained.
fn lie_so<T: IntPointContainment<i32>>(
    alloc: Global,
    area: &T,
    asked: &Asked,
) -> Result<bool, Fail> {
    let located = area.locate_points(alloc, &asked.points)?;
    let inside = area.contains_points(alloc, &asked.points)?;
    let mut are_told = inside.len() == asked.wanted.len();
    for (is_inside, wanted) in inside.iter().zip(&asked.wanted) {
        are_told = are_told && (*wanted == Boundary || *is_inside == (*wanted == Inside));
    }
    Ok(are_told && located == asked.wanted)
}

#[test]
fn points_in_a_comb(rt: HostRuntime) -> Result<(), Fail> {
    let alloc = rt.alloc();
    let contour = comb(alloc)?;
    // (one of the two tests compares all pairs of edges)
    assert!(&rt; is_resolved(&comb_of(alloc, 500)?) && is_resolved_in(alloc, &contour)?);
    assert!(&rt; lie_so(alloc, &contour, &in_comb(alloc)?)?);
    Ok(())
}

#[test]
fn points_in_squares(rt: HostRuntime) -> Result<(), Fail> {
    let alloc = rt.alloc();
    let asked = in_squares(alloc)?;
    assert!(&rt; lie_so(alloc, &squares(alloc, 0, 4)?, &asked)?);
    assert!(&rt; lie_so(alloc, &lone_squares(alloc, 0, 4)?, &asked)?);
    Ok(())
}

#[test]
fn points_in_a_prepared_comb(rt: HostRuntime) -> Result<(), Fail> {
    let alloc = rt.alloc();
    let mut shape = Vec::new(alloc);
    shape.push(comb(alloc)?)?;
    let asked = in_comb(alloc)?;
    for solver in [Solver::ABSOLUTE, Solver::SNAPPED] {
        let prepared = PreparedShape::new(alloc, &shape, FillRule::NonZero, solver)?;
        for (at, wanted) in asked.points.iter().zip(&asked.wanted) {
            assert!(&rt; prepared.locate(*at) == *wanted);
        }
    }
    Ok(())
}
