//! Each call by rounds on needles that rounds do not settle, at each coordinate type: the refusal says so, and not that
//! memory was refused.

use crate::snapped::{AROUND_BOTH, FIRST, SECOND, needles};
use i_overlay::fill_rule::FillRule;
use i_overlay::i_shape::flat::buffer::FlatContoursBuffer;
use i_overlay::overlay::{IntOverlayOptions, Overlay};
use i_overlay::overlay_rule::OverlayRule;
use i_overlay::relate::{IntRelate, PredicateOverlay};
use i_overlay::simplify::Simplify;
use i_overlay::single::SingleIntOverlay;
use i_overlay::solver::Solver;
use overlay_geom::error::OverlayError;
use overlay_geom::integer::OverlayInt;
use small_points::contours::{assert_in_range, contour_of, shape_of, shapes_of};
use std::alloc::Global;
use std::process::Abort;
use std::test::Fail;

const UNION: OverlayRule = OverlayRule::Union;

const RULE: FillRule = FillRule::NonZero;

// Whether the call was refused as not settled.
fn is_unsettled<T: Drop>(answer: Result<T, OverlayError>) -> bool {
    matches!(answer, Err(OverlayError::NotSettled))
}

// Whether a query of a builder with the needles is refused so, the builder has failed then, and the query is refused by
// this error when it is asked again.
fn fails<
    I: OverlayInt + From<i16> + PartialEq,
    T: Drop,
    Q: Fn(&mut Overlay<I, Global>) -> Result<T, OverlayError> + Drop,
>(rt: &impl Abort, alloc: Global, again: &OverlayError, query: Q) -> Result<bool, OverlayError> {
    let mut overlay = needles::<I>(rt, alloc, Solver::ABSOLUTE)?;
    let is_refused = is_unsettled(query(&mut overlay));
    let is_failed = matches!(overlay.overlay(UNION, RULE), Err(OverlayError::Failed));
    Ok(is_refused && is_failed && query(&mut overlay).is_err_and(|error| error == *again))
}

fn queries<I: OverlayInt + From<i16> + PartialEq>(
    rt: &impl Abort,
    alloc: Global,
) -> Result<(), OverlayError> {
    let failed = &OverlayError::Failed;
    assert!(rt; fails::<I, _, _>(rt, alloc, failed, |it| it.overlay(UNION, RULE))?);
    assert!(rt; fails::<I, _, _>(rt, alloc, failed, |it| it.overlay_hierarchy(UNION, RULE))?);
    assert!(rt; fails::<I, _, _>(rt, alloc, failed, |it| it.build_shape_vectors(RULE, UNION))?);
    assert!(rt; fails::<I, _, _>(rt, alloc, failed, |it| it.build_separate_vectors(RULE))?);
    assert!(rt;
        fails::<I, _, _>(rt, alloc, failed, |it| {
            let view = it.build_graph_view(RULE)?;
            Ok(view.is_some())
        })?
    );
    let mut overlay = needles::<I>(rt, alloc, Solver::ABSOLUTE)?;
    let mut output = FlatContoursBuffer::default(alloc)?;
    output.add_contour(&contour_of(alloc, &FIRST)?)?;
    assert!(rt; is_unsettled(overlay.overlay_into(UNION, RULE, &mut output)));
    assert!(rt; output.points.is_empty() && output.ranges.is_empty());
    Ok(())
}

#[test]
fn queries_do_not_settle(rt: HostRuntime) -> Result<(), Fail> {
    each_wide!(rt, queries)
}

// A flat buffer of these contours is refused so, and is left as it was, or empty.
fn flat<I: OverlayInt + From<i16> + PartialEq>(
    rt: &impl Abort,
    alloc: Global,
    contours: &[&[(i16, i16)]],
) -> Result<(), OverlayError> {
    let mut buffer = FlatContoursBuffer::default(alloc)?;
    for points in contours {
        buffer.add_contour(&contour_of::<I>(alloc, points)?)?;
    }
    let old = buffer.clone()?;
    let mut overlay = Overlay::new(alloc, 0)?;
    assert!(rt; is_unsettled(overlay.simplify_flat_buffer(&mut buffer, RULE)));
    let is_empty = buffer.points.is_empty() && buffer.ranges.is_empty();
    assert!(rt; is_empty || buffer == old);
    Ok(())
}

fn simplifying<I: OverlayInt + From<i16> + PartialEq>(
    rt: &impl Abort,
    alloc: Global,
) -> Result<(), OverlayError> {
    let one = contour_of::<I>(alloc, &AROUND_BOTH)?;
    let shape = shape_of::<I>(alloc, &[&FIRST, &SECOND])?;
    let alone = shape_of::<I>(alloc, &[&AROUND_BOTH])?;
    let shapes = shapes_of::<I>(alloc, &[&[&FIRST], &[&SECOND]])?;
    assert_in_range(rt, &one);
    assert_in_range(rt, &shapes);
    // (the builder is cleared first)
    let unsettled = &OverlayError::NotSettled;
    assert!(rt; fails::<I, _, _>(rt, alloc, unsettled, |it| it.simplify_contour(&one, RULE))?);
    assert!(rt; fails::<I, _, _>(rt, alloc, unsettled, |it| it.simplify_source(&one, RULE))?);
    assert!(rt; fails::<I, _, _>(rt, alloc, unsettled, |it| it.simplify_source(&shape, RULE))?);
    assert!(rt; fails::<I, _, _>(rt, alloc, unsettled, |it| it.simplify_shape(&alone, RULE))?);
    assert!(rt; fails::<I, _, _>(rt, alloc, unsettled, |it| it.simplify_shape(&shape, RULE))?);
    assert!(rt; fails::<I, _, _>(rt, alloc, unsettled, |it| it.simplify_shapes(&shapes, RULE))?);
    flat::<I>(rt, alloc, &[&AROUND_BOTH])?;
    flat::<I>(rt, alloc, &[&FIRST, &SECOND])?;
    let options = IntOverlayOptions::default();
    assert!(rt; is_unsettled(one.simplify(alloc, RULE, options)));
    assert!(rt; is_unsettled(shapes.simplify(alloc, RULE, options)));
    Ok(())
}

#[test]
fn simplifying_does_not_settle(rt: HostRuntime) -> Result<(), Fail> {
    each_wide!(rt, simplifying)
}

// The needles in a builder of predicates.
fn pair<I: OverlayInt + From<i16> + PartialEq>(
    alloc: Global,
) -> Result<PredicateOverlay<I, Global>, OverlayError> {
    let (first, second) = (contour_of(alloc, &FIRST)?, contour_of(alloc, &SECOND)?);
    let mut pair = PredicateOverlay::from_subj_and_clip(alloc, &first, &second)?;
    pair.fill_rule = RULE;
    Ok(pair)
}

fn predicates<I: OverlayInt + From<i16> + PartialEq>(
    rt: &impl Abort,
    alloc: Global,
) -> Result<(), OverlayError> {
    assert!(rt; is_unsettled(pair::<I>(alloc)?.intersects()));
    assert!(rt; is_unsettled(pair::<I>(alloc)?.interiors_intersect()));
    assert!(rt; is_unsettled(pair::<I>(alloc)?.touches()));
    assert!(rt; is_unsettled(pair::<I>(alloc)?.point_intersects()));
    assert!(rt; is_unsettled(pair::<I>(alloc)?.within()));
    assert!(rt; is_unsettled(pair::<I>(alloc)?.covers()));
    assert!(rt; is_unsettled(pair::<I>(alloc)?.relations()));
    Ok(())
}

#[test]
fn predicates_do_not_settle(rt: HostRuntime) -> Result<(), Fail> {
    each_wide!(rt, predicates)
}

fn one_call<I: OverlayInt + From<i16> + PartialEq>(
    rt: &impl Abort,
    alloc: Global,
) -> Result<(), OverlayError> {
    let (first, second) = (
        contour_of::<I>(alloc, &FIRST)?,
        contour_of::<I>(alloc, &SECOND)?,
    );
    assert_in_range(rt, &first);
    assert_in_range(rt, &second);
    assert!(rt; is_unsettled(first.intersects(alloc, &second)));
    assert!(rt; is_unsettled(first.interiors_intersect(alloc, &second)));
    assert!(rt; is_unsettled(first.touches(alloc, &second)));
    assert!(rt; is_unsettled(first.point_intersects(alloc, &second)));
    assert!(rt; is_unsettled(first.within(alloc, &second)));
    assert!(rt; is_unsettled(first.disjoint(alloc, &second)));
    assert!(rt; is_unsettled(first.covers(alloc, &second)));
    assert!(rt; is_unsettled(first.overlay(alloc, &second, UNION, RULE)));
    Ok(())
}

#[test]
fn calls_without_a_builder_do_not_settle(rt: HostRuntime) -> Result<(), Fail> {
    each_wide!(rt, one_call)
}
