//! Shapes as they are given, asked about points.

use overlay_geom::fill_rule::FillRule;
use overlay_geom::integer::OverlayInt;
use overlay_geom::path::IntShape;
use overlay_geom::point::{IntPoint, in_range};
use overlay_located::exact_shape::ExactShape;
use overlay_relate::location::PointLocation;
use overlay_relate::location::PointLocation::{Boundary, Inside, Outside};
use std::alloc::Global;
use std::process::Abort;
use std::test::Fail;

/// Points, by where they lie.
#[derive(Clone, Copy)]
pub(crate) struct Lying<'a> {
    /// Inside.
    pub(crate) inside: &'a [[i16; 2]],
    /// On the boundary.
    pub(crate) boundary: &'a [[i16; 2]],
    /// Outside.
    pub(crate) outside: &'a [[i16; 2]],
}

// The contours with these points.
fn contours<I: OverlayInt + From<i16>>(
    alloc: Global,
    all: &[&[[i16; 2]]],
) -> Result<IntShape<I, Global>, Fail> {
    let mut shape = Vec::new(alloc);
    for contour in all {
        let mut points = Vec::new(alloc);
        for at in *contour {
            points.push(IntPoint::new(I::from(at[0]), I::from(at[1])))?;
        }
        shape.push(points)?;
    }
    Ok(shape)
}

// Asks the shape of contours in range about each point.
fn ask<I: OverlayInt + From<i16>>(
    rt: &impl Abort,
    alloc: Global,
    all: &[&[[i16; 2]]],
    fill_rule: FillRule,
    wanted: &Lying<'_>,
) -> Result<(), Fail> {
    let shape = contours::<I>(alloc, all)?;
    for contour in &shape {
        assert!(rt; in_range(contour));
    }
    let exact = ExactShape::new(alloc, &shape, fill_rule)?;
    assert!(rt; lie_there(&exact, wanted.inside, Inside));
    assert!(rt; lie_there(&exact, wanted.boundary, Boundary));
    assert!(rt; lie_there(&exact, wanted.outside, Outside));
    Ok(())
}

// Tests whether all of the points lie there.
fn lie_there<I: OverlayInt + From<i16>>(
    exact: &ExactShape<I, Global>,
    points: &[[i16; 2]],
    wanted: PointLocation,
) -> bool {
    for at in points {
        if exact.locate(IntPoint::new(I::from(at[0]), I::from(at[1]))) != wanted {
            return false;
        }
    }
    true
}

/// Asks so by each of these fill rules, at each coordinate type.
pub(crate) fn ask_each(
    rt: &impl Abort,
    alloc: Global,
    all: &[&[[i16; 2]]],
    by_rule: &[(FillRule, Lying<'_>)],
) -> Result<(), Fail> {
    for (fill_rule, wanted) in by_rule {
        ask::<i16>(rt, alloc, all, *fill_rule, wanted)?;
        ask::<i32>(rt, alloc, all, *fill_rule, wanted)?;
        ask::<i64>(rt, alloc, all, *fill_rule, wanted)?;
    }
    Ok(())
}
