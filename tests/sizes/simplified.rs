//! Calls that simplify: the comb stays as it is, and squares come out each as a shape.

use crate::figures::{COUNT, are_squares, comb, flat_squares, lone_squares, squares};
use i_overlay::fill_rule::FillRule;
use i_overlay::i_float::int::point::IntPoint;
use i_overlay::i_shape::int::path::PathRef;
use i_overlay::overlay::{ContourDirection, IntOverlayOptions, Overlay};
use i_overlay::simplify::Simplify;
use i_overlay::simplifying::outcome::Outcome;
use i_overlay::simplifying::shapes::shapes_left;
use i_overlay::simplifying::simple::{Simplifying, outcome_of_contour};
use i_overlay::solver::Solver;
use overlay_builder::builder_core::BuilderCore;
use std::process::Abort;
use std::test::Fail;

const RULE: FillRule = FillRule::NonZero;

#[test]
fn a_comb(rt: HostRuntime) -> Result<(), Fail> {
    let alloc = rt.alloc();
    let mut overlay: Overlay<i32, _> = Overlay::new(alloc, 0)?;
    let mut contour = comb(alloc)?;
    assert!(&rt; overlay.simplify_contour(&contour, RULE)?.is_none());
    let dropped = overlay.simplify_contour(&contour, FillRule::Negative)?;
    assert!(&rt; dropped.is_some_and(|shapes| shapes.is_empty()));
    let one = PathRef::new(&contour).simplify(alloc, RULE, IntOverlayOptions::default())?;
    assert!(&rt; one.len() == 1 && one[0].len() == 1 && one[0][0].len() == 4 * COUNT);
    let mut core = BuilderCore::with_capacity(alloc, 4 * COUNT)?;
    let asked = Simplifying {
        solver: Solver::SNAPPED,
        keeps_points: false,
        fill_rule: RULE,
        output_direction: ContourDirection::CounterClockwise,
    };
    let outcome = outcome_of_contour(&mut core, &contour, asked)?;
    let left = shapes_left(alloc, &contour, outcome)?;
    assert!(&rt; outcome == Outcome::AsGiven && left.len() == 1 && left[0].len() == 1);
    assert!(&rt; left[0][0].as_slice() == contour.as_slice());
    contour.reverse();
    let Some(turned) = overlay.simplify_contour(&contour, RULE)? else {
        assert!(&rt; false, "it stays clockwise");
        return Ok(());
    };
    contour.reverse();
    assert!(&rt; turned.len() == 1 && turned[0].len() == 1);
    assert!(&rt; turned[0][0].as_slice() == contour.as_slice());
    Ok(())
}

#[test]
fn many_squares(rt: HostRuntime) -> Result<(), Fail> {
    let alloc = rt.alloc();
    let shape = squares(alloc, 0, 4)?;
    let mut overlay = Overlay::new(alloc, 0)?;
    assert!(&rt; are_squares(&overlay.simplify_source(&shape, RULE)?, 0, 4));
    let found = overlay.simplify_shape(&shape, RULE)?;
    assert!(&rt; found.is_some_and(|shapes| are_squares(&shapes, 0, 4)));
    let found = overlay.simplify_shapes(&lone_squares(alloc, 0, 4)?, RULE)?;
    assert!(&rt; are_squares(&found, 0, 4));
    let options = IntOverlayOptions::default();
    let found = shape.simplify(alloc, RULE, options)?;
    assert!(&rt; are_squares(&found, 0, 4));
    let found = shape.simplify_with_solver(alloc, RULE, options, Solver::SNAPPED)?;
    assert!(&rt; are_squares(&found, 0, 4));
    Ok(())
}

#[test]
fn a_flat_buffer(rt: HostRuntime) -> Result<(), Fail> {
    let alloc = rt.alloc();
    let mut buffer = flat_squares(alloc, 0, 4)?;
    let mut overlay = Overlay::new(alloc, 0)?;
    overlay.simplify_flat_buffer(&mut buffer, RULE)?;
    assert!(&rt; buffer.ranges.len() == COUNT);
    let corner: IntPoint<i32> = buffer.points[4 * COUNT - 3];
    let last = &crate::figures::corner_at(COUNT - 1);
    assert!(&rt; buffer.points.len() == 4 * COUNT && corner == *last);
    Ok(())
}
