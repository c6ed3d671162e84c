//! Calls that leave no builder, by each solver: rounds do not settle the needles, and snap rounding does.

use crate::snapped::{FIRST, SECOND};
use i_overlay::fill_rule::FillRule;
use i_overlay::overlay::IntOverlayOptions;
use i_overlay::overlay_rule::OverlayRule;
use i_overlay::relate::{IntRelate, Relations};
use i_overlay::simplify::Simplify;
use i_overlay::single::SingleIntOverlay;
use i_overlay::solver::Solver;
use overlay_geom::error::OverlayError;
use overlay_geom::integer::OverlayInt;
use overlay_geom::path::IntShapes;
use small_points::contours::{Points, assert_in_range, contour_of, shape_of, shapes_of};
use std::alloc::Global;
use std::process::Abort;
use std::test::Fail;

const RULE: FillRule = FillRule::NonZero;

const ROUNDS: Solver = Solver::ABSOLUTE;

const SNAPPED: Solver = Solver::SNAPPED;

// Outline of both needles. The crossings of their sides round to (0, 65), by hand.
const OUTLINE: Points<'static> = &[(0, 65), (-1, 0), (1, 0), (2, -66), (2, 0)];

fn is_unsettled<T: Drop>(answer: Result<T, OverlayError>) -> bool {
    matches!(answer, Err(OverlayError::NotSettled))
}

fn is_union<I: OverlayInt + From<i16> + PartialEq>(
    alloc: Global,
    shapes: &IntShapes<I, Global>,
) -> Result<bool, OverlayError> {
    Ok(*shapes == shapes_of::<I>(alloc, &[&[OUTLINE]])?)
}

fn overlays<I: OverlayInt + From<i16> + PartialEq>(
    rt: &impl Abort,
    alloc: Global,
) -> Result<(), OverlayError> {
    let first = contour_of::<I>(alloc, &FIRST)?;
    let second = contour_of::<I>(alloc, &SECOND)?;
    assert_in_range(rt, &first);
    assert_in_range(rt, &second);
    let union = OverlayRule::Union;
    assert!(rt; is_unsettled(first.overlay(alloc, &second, union, RULE)));
    assert!(rt; is_unsettled(first.overlay_with_solver(alloc, &second, union, RULE, ROUNDS)));
    let shapes = first.overlay_with_solver(alloc, &second, union, RULE, SNAPPED)?;
    assert!(rt; is_union(alloc, &shapes)?);
    Ok(())
}

fn simplified<I: OverlayInt + From<i16> + PartialEq>(
    rt: &impl Abort,
    alloc: Global,
) -> Result<(), OverlayError> {
    let both = shape_of::<I>(alloc, &[&FIRST, &SECOND])?;
    assert_in_range(rt, &both);
    let options = IntOverlayOptions::default();
    assert!(rt; is_unsettled(both.simplify(alloc, RULE, options)));
    assert!(rt; is_unsettled(both.simplify_with_solver(alloc, RULE, options, ROUNDS)));
    let shapes = both.simplify_with_solver(alloc, RULE, options, SNAPPED)?;
    assert!(rt; is_union(alloc, &shapes)?);
    Ok(())
}

fn refused<I: OverlayInt + From<i16> + PartialEq>(
    rt: &impl Abort,
    alloc: Global,
) -> Result<(), OverlayError> {
    let first = contour_of::<I>(alloc, &FIRST)?;
    let second = contour_of::<I>(alloc, &SECOND)?;
    assert_in_range(rt, &first);
    assert_in_range(rt, &second);
    let answers = [
        first.intersects(alloc, &second),
        first.intersects_with_solver(alloc, &second, ROUNDS),
        first.interiors_intersect(alloc, &second),
        first.interiors_intersect_with_solver(alloc, &second, ROUNDS),
        first.touches(alloc, &second),
        first.touches_with_solver(alloc, &second, ROUNDS),
        first.point_intersects(alloc, &second),
        first.point_intersects_with_solver(alloc, &second, ROUNDS),
        first.within(alloc, &second),
        first.within_with_solver(alloc, &second, ROUNDS),
        first.disjoint(alloc, &second),
        first.disjoint_with_solver(alloc, &second, ROUNDS),
        first.covers(alloc, &second),
        first.covers_with_solver(alloc, &second, ROUNDS),
    ];
    for answer in answers {
        assert!(rt; is_unsettled(answer));
    }
    Ok(())
}

// What each call tells of the needles by snap rounding.
fn told<I: OverlayInt + From<i16>>(
    alloc: Global,
    subj: Points<'_>,
    clip: Points<'_>,
) -> Result<Relations, OverlayError> {
    let subj = contour_of::<I>(alloc, subj)?;
    let clip = contour_of::<I>(alloc, clip)?;
    Ok(Relations {
        intersects: subj.intersects_with_solver(alloc, &clip, SNAPPED)?,
        interiors_intersect: subj.interiors_intersect_with_solver(alloc, &clip, SNAPPED)?,
        touches: subj.touches_with_solver(alloc, &clip, SNAPPED)?,
        point_intersects: subj.point_intersects_with_solver(alloc, &clip, SNAPPED)?,
        within: subj.within_with_solver(alloc, &clip, SNAPPED)?,
        disjoint: subj.disjoint_with_solver(alloc, &clip, SNAPPED)?,
        covers: subj.covers_with_solver(alloc, &clip, SNAPPED)?,
    })
}

// Snap rounding leaves them the edge from (0, 65) to (1, 0), and no common inside. A square round the first needle
// covers it.
fn related<I: OverlayInt + From<i16> + PartialEq>(
    rt: &impl Abort,
    alloc: Global,
) -> Result<(), OverlayError> {
    let touching = Relations {
        intersects: true,
        interiors_intersect: false,
        touches: true,
        point_intersects: false,
        within: false,
        disjoint: false,
        covers: false,
    };
    assert!(rt; told::<I>(alloc, &FIRST, &SECOND)? == touching);
    let square = [(-70, -70), (70, -70), (70, 70), (-70, 70)];
    let crossing = Relations {
        intersects: true,
        interiors_intersect: true,
        touches: false,
        point_intersects: false,
        within: false,
        disjoint: false,
        covers: false,
    };
    let covering = Relations {
        covers: true,
        ..crossing
    };
    assert!(rt; told::<I>(alloc, &square, &FIRST)? == covering);
    let inside = Relations {
        within: true,
        ..crossing
    };
    assert!(rt; told::<I>(alloc, &FIRST, &square)? == inside);
    Ok(())
}

#[test]
fn overlays_take_a_solver(rt: HostRuntime) -> Result<(), Fail> {
    each_wide!(rt, overlays)
}

#[test]
fn simplifying_takes_a_solver(rt: HostRuntime) -> Result<(), Fail> {
    each_wide!(rt, simplified)
}

#[test]
fn relations_by_rounds_are_refused(rt: HostRuntime) -> Result<(), Fail> {
    each_wide!(rt, refused)
}

#[test]
fn relations_take_a_solver(rt: HostRuntime) -> Result<(), Fail> {
    each_wide!(rt, related)
}
