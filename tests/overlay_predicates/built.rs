//! Each call that makes a builder for exact predicates, or adds to it.

use crate::asked::{ALIKE, APART, WITHIN, points, shape};
use overlay_exact::exact_int::ExactInt;
use overlay_geom::error::OverlayError;
use overlay_geom::fill_rule::FillRule;
use overlay_geom::point::{IntPoint, in_range};
use overlay_predicates::exact_predicates::{ExactPredicates, ShapeType};
use std::alloc::Global;
use std::process::Abort;
use std::test::Fail;

const SQUARE: [[i16; 2]; 4] = [[0, 0], [2, 0], [2, 2], [0, 2]];

// A square round it.
const ROUND: [[i16; 2]; 4] = [[-1, -1], [3, -1], [3, 3], [-1, 3]];

// Adds a contour that is in range and whose points come one by one.
fn add_points<I: ExactInt>(
    rt: &impl Abort,
    predicates: &mut ExactPredicates<I, Global>,
    points: &[IntPoint<I>],
    shape_type: ShapeType,
) -> Result<(), OverlayError> {
    assert!(rt; in_range(points));
    predicates.add_path_iter(points.iter().copied(), shape_type)
}

// What is added counts in each later answer, until it is dropped.
fn check<I: ExactInt + From<i16>>(rt: &impl Abort, alloc: Global) -> Result<(), Fail> {
    let (square, round) = (
        points::<I>(rt, alloc, &SQUARE)?,
        points::<I>(rt, alloc, &ROUND)?,
    );
    assert!(rt; in_range(&square) && in_range(&round));
    let mut predicates: ExactPredicates<I, Global> = ExactPredicates::new(alloc, 4)?;
    assert!(rt; predicates.fill_rule == FillRule::EvenOdd);
    assert!(rt; predicates.relations()? == APART);
    predicates.add_contour(&square, ShapeType::Subject)?;
    assert!(rt; predicates.relations()? == APART);
    add_points(rt, &mut predicates, &round, ShapeType::Clip)?;
    assert!(rt; predicates.relations()? == WITHIN);
    predicates.add_contour(&round, ShapeType::Subject)?;
    predicates.fill_rule = FillRule::NonZero;
    assert!(rt; predicates.relations()? == ALIKE);
    predicates.clear();
    assert!(rt; predicates.fill_rule == FillRule::NonZero);
    assert!(rt; predicates.relations()? == APART);
    Ok(())
}

#[test]
fn adders(rt: HostRuntime) -> Result<(), Fail> {
    check::<i16>(&rt, rt.alloc())?;
    check::<i32>(&rt, rt.alloc())?;
    check::<i64>(&rt, rt.alloc())
}

// A builder of two shapes, and one that they are brought into anew.
#[test]
fn shapes(rt: HostRuntime) -> Result<(), Fail> {
    let alloc = rt.alloc();
    let square = shape::<i64>(&rt, alloc, &[&SQUARE])?;
    let round = shape::<i64>(&rt, alloc, &[&ROUND])?;
    let beside = shape::<i64>(&rt, alloc, &[&[[4, 0], [5, 0], [5, 1]]])?;
    let mut predicates = ExactPredicates::from_subj_and_clip(alloc, &square, &round)?;
    assert!(rt; predicates.fill_rule == FillRule::EvenOdd);
    assert!(rt; predicates.relations()? == WITHIN);
    predicates.reinit_with_subj_and_clip(&round, &square)?;
    assert!(rt; predicates.covers()? && !predicates.within()?);
    predicates.add_source(&beside, ShapeType::Clip)?;
    assert!(rt; predicates.intersects()? && !predicates.covers()?);
    Ok(())
}
