//! Each call that makes a builder for predicates, or adds to it, at each coordinate type.

use crate::asked::{assert_contour, assert_shape, assert_shapes, points};
use overlay_builder::solver::Solver;
use overlay_geom::error::OverlayError;
use overlay_geom::fill_rule::FillRule;
use overlay_geom::integer::OverlayInt;
use overlay_geom::path::{IntShape, IntShapes};
use overlay_geom::point::{IntPoint, in_range};
use overlay_relate::predicate_overlay::{PredicateOverlay, ShapeType};
use std::alloc::Global;
use std::process::Abort;
use std::test::Fail;

const SQUARE: [[i16; 2]; 4] = [[0, 0], [2, 0], [2, 2], [0, 2]];

// The square as a shape.
fn square<I: OverlayInt + From<i16>>(alloc: Global) -> Result<IntShape<I, Global>, Fail> {
    let mut shape = Vec::new(alloc);
    shape.push(points::<I>(alloc, &SQUARE)?)?;
    Ok(shape)
}

// Each constructor makes a builder with the rule that is asked for, or EvenOdd.
fn constructors<I: OverlayInt + From<i16>>(rt: &impl Abort, alloc: Global) -> Result<(), Fail> {
    let shape = square::<I>(alloc)?;
    assert_shape(rt, &shape);
    let empty: PredicateOverlay<I, Global> = PredicateOverlay::new(alloc, 4)?;
    assert!(rt; empty.fill_rule == FillRule::EvenOdd);
    let both = PredicateOverlay::from_subj_and_clip(alloc, &shape, &shape)?;
    assert!(rt; both.fill_rule == FillRule::EvenOdd);
    let rule = FillRule::Positive;
    let solver = Solver::ABSOLUTE;
    let custom = PredicateOverlay::from_subj_and_clip_custom(alloc, &shape, &shape, rule, solver)?;
    assert!(rt; custom.fill_rule == FillRule::Positive);
    Ok(())
}

// Adds a contour that is in range and whose points come one by one.
fn add_points<I: OverlayInt>(
    rt: &impl Abort,
    overlay: &mut PredicateOverlay<I, Global>,
    points: &[IntPoint<I>],
    shape_type: ShapeType,
) -> Result<(), OverlayError> {
    assert!(rt; in_range(points));
    overlay.add_path_iter(points.iter().copied(), shape_type)
}

// Each adder is granted.
fn adders<I: OverlayInt + From<i16>>(rt: &impl Abort, alloc: Global) -> Result<(), Fail> {
    let contour = points::<I>(alloc, &SQUARE)?;
    assert_contour(rt, &contour);
    let mut overlay: PredicateOverlay<I, Global> = PredicateOverlay::new(alloc, 0)?;
    overlay.add_contour(&contour, ShapeType::Subject)?;
    add_points(rt, &mut overlay, &contour, ShapeType::Clip)?;
    let shape = square::<I>(alloc)?;
    assert_shape(rt, &shape);
    overlay.add_source(&shape, ShapeType::Clip)?;
    overlay.clear();
    overlay.fill_rule = FillRule::NonZero;
    Ok(())
}

// The paths of a subject and of a clip are put in the place of what is held.
fn again<I: OverlayInt + From<i16>>(rt: &impl Abort, alloc: Global) -> Result<(), Fail> {
    let mut overlay: PredicateOverlay<I, Global> = PredicateOverlay::new(alloc, 0)?;
    let shape = square::<I>(alloc)?;
    assert_shape(rt, &shape);
    overlay.reinit_with_subj_and_clip(&shape, &shape)?;
    Ok(())
}

// Each deprecated adder is granted.
fn lists<I: OverlayInt + From<i16>>(rt: &impl Abort, alloc: Global) -> Result<(), Fail> {
    let shape = square::<I>(alloc)?;
    assert_shape(rt, &shape);
    let mut overlay: PredicateOverlay<I, Global> = PredicateOverlay::new(alloc, 0)?;
    overlay.add_contours(&shape, ShapeType::Subject)?;
    overlay.add_shape(&shape, ShapeType::Clip)?;
    let mut shapes: IntShapes<I, Global> = Vec::new(alloc);
    shapes.push(shape)?;
    assert_shapes(rt, &shapes);
    overlay.add_shapes(&shapes, ShapeType::Clip)?;
    Ok(())
}

#[test]
fn builders_for_predicates(rt: HostRuntime) -> Result<(), Fail> {
    constructors::<i16>(&rt, rt.alloc())?;
    constructors::<i32>(&rt, rt.alloc())?;
    constructors::<i64>(&rt, rt.alloc())?;
    adders::<i16>(&rt, rt.alloc())?;
    adders::<i32>(&rt, rt.alloc())?;
    adders::<i64>(&rt, rt.alloc())?;
    again::<i16>(&rt, rt.alloc())?;
    again::<i32>(&rt, rt.alloc())?;
    again::<i64>(&rt, rt.alloc())?;
    lists::<i16>(&rt, rt.alloc())?;
    lists::<i32>(&rt, rt.alloc())?;
    lists::<i64>(&rt, rt.alloc())
}
