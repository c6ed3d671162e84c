//! Contours that rounds do not settle, and that snap rounding does, at each coordinate type.

use i_overlay::fill_rule::FillRule;
use i_overlay::overlay::{IntOverlayOptions, Overlay};
use i_overlay::overlay_rule::OverlayRule;
use i_overlay::relate::PredicateOverlay;
use i_overlay::solver::Solver;
use overlay_geom::error::OverlayError;
use overlay_geom::integer::OverlayInt;
use overlay_geom::path::IntShapes;
use small_points::contours::{assert_in_range, contour_of};
use std::alloc::Global;
use std::process::Abort;
use std::test::Fail;

/// Two needles, whose long sides cross so flatly that each round moves their crossing on by one unit: 66 rounds would
/// settle them.
pub(crate) const FIRST: [(i16, i16); 3] = [(2, 0), (0, 66), (2, -66)];

/// The second of them.
pub(crate) const SECOND: [(i16, i16); 3] = [(1, 0), (0, 67), (-1, 0)];

/// One contour that runs round both needles, and between them twice along one edge, which cancels out.
pub(crate) const AROUND_BOTH: [(i16, i16); 8] = [
    (2, 0),
    (0, 66),
    (2, -66),
    (-1, 0),
    (1, 0),
    (0, 67),
    (-1, 0),
    (2, -66),
];

/// A builder of the needles by a solver: the first is the subject, and the second the clip.
pub(crate) fn needles<I: OverlayInt + From<i16> + PartialEq>(
    rt: &impl Abort,
    alloc: Global,
    solver: Solver,
) -> Result<Overlay<I, Global>, OverlayError> {
    let first = contour_of::<I>(alloc, &FIRST)?;
    let second = contour_of::<I>(alloc, &SECOND)?;
    assert_in_range(rt, &first);
    assert_in_range(rt, &second);
    Overlay::from_subj_and_clip_custom(alloc, &first, &second, IntOverlayOptions::default(), solver)
}

// The union of the needles. The crossings of their sides round to (0, 65), by hand. The sides of the first are led
// through it. The second becomes the edges from there to (-1, 0) and from (-1, 0) to (1, 0).
fn union<I: OverlayInt + From<i16> + PartialEq>(
    rt: &impl Abort,
    alloc: Global,
) -> Result<(), OverlayError> {
    let mut by_rounds = needles::<I>(rt, alloc, Solver::ABSOLUTE)?;
    let refused = by_rounds.overlay(OverlayRule::Union, FillRule::NonZero);
    assert!(rt; matches!(refused, Err(OverlayError::NotSettled)));
    let mut snapped = needles::<I>(rt, alloc, Solver::SNAPPED)?;
    let shapes = snapped.overlay(OverlayRule::Union, FillRule::NonZero)?;
    assert!(rt; shapes.len() == 1 && shapes[0].len() == 1);
    let outline = contour_of::<I>(alloc, &[(0, 65), (-1, 0), (1, 0), (2, -66), (2, 0)])?;
    assert!(rt; shapes[0][0].as_slice() == outline.as_slice());
    Ok(())
}

// Result of a second query: the arrangement, which both solvers leave as it is.
fn once_more<I: OverlayInt + From<i16> + PartialEq>(
    rt: &impl Abort,
    alloc: Global,
) -> Result<(), OverlayError> {
    let mut builder = needles::<I>(rt, alloc, Solver::SNAPPED)?;
    let first = builder.build_separate_vectors(FillRule::NonZero)?;
    builder.solver = Solver::ABSOLUTE;
    let second = builder.build_separate_vectors(FillRule::NonZero)?;
    assert!(rt; first.len() == 6 && first.as_slice() == second.as_slice());
    Ok(())
}

// Two squares, whose sides cross in whole points, are answered alike by both solvers.
fn whole<I: OverlayInt + From<i16> + PartialEq>(
    rt: &impl Abort,
    alloc: Global,
) -> Result<(), OverlayError> {
    let left = contour_of::<I>(alloc, &[(0, 0), (4, 0), (4, 4), (0, 4)])?;
    let right = contour_of::<I>(alloc, &[(2, 2), (6, 2), (6, 6), (2, 6)])?;
    assert_in_range(rt, &left);
    assert_in_range(rt, &right);
    let options = IntOverlayOptions::default();
    let solver = Solver::SNAPPED;
    let mut snapped = Overlay::from_subj_and_clip_custom(alloc, &left, &right, options, solver)?;
    let mut by_rounds = Overlay::from_subj_and_clip(alloc, &left, &right)?;
    let shapes = snapped.overlay(OverlayRule::Xor, FillRule::EvenOdd)?;
    assert!(rt;
        shapes.len() == 2 && shapes == by_rounds.overlay(OverlayRule::Xor, FillRule::EvenOdd)?
    );
    Ok(())
}

// Relations of the needles: they share their parts from (0, 65) to (1, 0), and the first fills none of the second.
fn relations<I: OverlayInt + From<i16> + PartialEq>(
    rt: &impl Abort,
    alloc: Global,
) -> Result<(), OverlayError> {
    let first = contour_of::<I>(alloc, &FIRST)?;
    let second = contour_of::<I>(alloc, &SECOND)?;
    assert_in_range(rt, &first);
    assert_in_range(rt, &second);
    let rule = FillRule::NonZero;
    let solver = Solver::SNAPPED;
    let mut pair = PredicateOverlay::from_subj_and_clip_custom(
        alloc, &first, &second, rule, solver,
    )?;
    assert!(rt; pair.touches()? && !pair.within()?);
    Ok(())
}

// Tests whether these are the contours of the single shape that the needles are simplified to.
fn is_union<I: OverlayInt + From<i16> + PartialEq>(
    alloc: Global,
    shapes: &IntShapes<I, Global>,
) -> Result<bool, OverlayError> {
    let outline = contour_of::<I>(alloc, &[(0, 65), (-1, 0), (1, 0), (2, -66), (2, 0)])?;
    Ok(shapes.len() == 1 && shapes[0].len() == 1 && shapes[0][0].as_slice() == outline.as_slice())
}

// Simplifies the needles as a shape, and as a resource. The default solver, rounds, refuses them, and snap rounding
// unites them.
fn simplified<I: OverlayInt + From<i16> + PartialEq>(
    rt: &impl Abort,
    alloc: Global,
) -> Result<(), OverlayError> {
    let mut shape = Vec::new(alloc);
    shape.push(contour_of::<I>(alloc, &FIRST)?)?;
    shape.push(contour_of::<I>(alloc, &SECOND)?)?;
    assert_in_range(rt, &shape);
    let rule = FillRule::NonZero;
    let options = IntOverlayOptions::default();
    let mut by_rounds = Overlay::new(alloc, 8)?;
    assert!(rt; by_rounds.solver == Solver::ABSOLUTE);
    assert!(rt;
        matches!(
            by_rounds.simplify_shape(&shape, rule),
            Err(OverlayError::NotSettled)
        )
    );
    assert!(rt;
        matches!(
            by_rounds.simplify_source(&shape, rule),
            Err(OverlayError::NotSettled)
        )
    );
    let mut snapped = Overlay::new_custom(alloc, 8, options, Solver::SNAPPED)?;
    let Some(shapes) = snapped.simplify_shape(&shape, rule)? else {
        assert!(rt; false, "they stay as they are");
        return Ok(());
    };
    assert!(rt; is_union(alloc, &shapes)?);
    assert!(rt; is_union(alloc, &snapped.simplify_source(&shape, rule)?)?);
    Ok(())
}

// Simplifies the contour to that shape.
fn one_contour<I: OverlayInt + From<i16> + PartialEq>(
    rt: &impl Abort,
    alloc: Global,
) -> Result<(), OverlayError> {
    let contour = contour_of::<I>(alloc, &AROUND_BOTH)?;
    assert_in_range(rt, &contour);
    let rule = FillRule::NonZero;
    let options = IntOverlayOptions::default();
    let mut by_rounds = Overlay::new(alloc, 8)?;
    let refused = by_rounds.simplify_contour(&contour, rule);
    assert!(rt; matches!(refused, Err(OverlayError::NotSettled)));
    let mut snapped = Overlay::new_custom(alloc, 8, options, Solver::SNAPPED)?;
    let Some(shapes) = snapped.simplify_contour(&contour, rule)? else {
        assert!(rt; false, "it stays as it is");
        return Ok(());
    };
    assert!(rt; is_union(alloc, &shapes)?);
    Ok(())
}

#[test]
fn needles_are_united(rt: HostRuntime) -> Result<(), Fail> {
    each_wide!(rt, union)
}

#[test]
fn snapped_edges_stay_as_they_are(rt: HostRuntime) -> Result<(), Fail> {
    each_wide!(rt, once_more)
}

#[test]
fn whole_crossings_do_not_move(rt: HostRuntime) -> Result<(), Fail> {
    each_wide!(rt, whole)
}

#[test]
fn needles_are_related(rt: HostRuntime) -> Result<(), Fail> {
    each_wide!(rt, relations)
}

#[test]
fn needles_are_simplified(rt: HostRuntime) -> Result<(), Fail> {
    each_wide!(rt, simplified)
}

#[test]
fn one_contour_is_simplified(rt: HostRuntime) -> Result<(), Fail> {
    each_wide!(rt, one_contour)
}
