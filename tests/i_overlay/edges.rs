//! The edges that a builder gives, at each coordinate type and at the ends of its range.

use crate::builders::{add, check_answered, check_edges, check_fills, edge, edge_count, empty};
use crate::contours::{OF_SQUARE, SQUARE, add_contours, builder_of};
use crate::squares::{square, square_edges};
use i_overlay::fill_rule::FillRule;
use i_overlay::i_float::int::point::IntPoint;
use i_overlay::overlay::{IntOverlayOptions, Overlay, ShapeType};
use overlay_geom::error::OverlayError;
use overlay_geom::integer::OverlayInt;
use small_points::contours::Points;
use std::alloc::Global;
use std::process::Abort;
use std::test::Fail;

// A builder with one contour as a subject.
fn builder_with<I: OverlayInt>(
    rt: &impl Abort,
    alloc: Global,
    contour: &[IntPoint<I>],
) -> Result<Overlay<I, Global>, OverlayError> {
    let mut overlay = empty(alloc)?;
    add(rt, &mut overlay, contour, ShapeType::Subject)?;
    Ok(overlay)
}

// Checks the edges of a square as a subject.
fn check_square<I: OverlayInt + PartialEq>(
    rt: &impl Abort,
    alloc: Global,
    low: I,
    high: I,
    rule: FillRule,
) -> Result<(), OverlayError> {
    let (contour, wanted) = (square(low, high), square_edges(low, high));
    let mut overlay = builder_with(rt, alloc, &contour)?;
    check_edges(rt, &mut overlay, rule, &wanted);
    Ok(())
}

#[test]
fn square_at_i16(rt: HostRuntime) -> Result<(), Fail> {
    check_square(&rt, rt.alloc(), 0i16, 2, FillRule::NonZero)?;
    check_square(&rt, rt.alloc(), -16383i16, 16383, FillRule::NonZero)?;
    Ok(())
}

#[test]
fn square_at_i32(rt: HostRuntime) -> Result<(), Fail> {
    let (low, high) = (-1073741823i32, 1073741823);
    check_square(&rt, rt.alloc(), 0i32, 2, FillRule::Positive)?;
    check_square(&rt, rt.alloc(), low, high, FillRule::Positive)?;
    Ok(())
}

#[test]
fn square_at_i64(rt: HostRuntime) -> Result<(), Fail> {
    let (low, high) = (-4611686018427387903i64, 4611686018427387903);
    check_square(&rt, rt.alloc(), 0i64, 2, FillRule::EvenOdd)?;
    check_square(&rt, rt.alloc(), low, high, FillRule::EvenOdd)?;
    Ok(())
}

// Checks the fills of the edges that contours give.
fn check_contours(
    rt: &impl Abort,
    alloc: Global,
    contours: &[Points<'_>],
    shape_type: ShapeType,
    rule: FillRule,
    fills: &[u8],
) -> Result<(), Fail> {
    let mut overlay = builder_of(rt, alloc, contours, shape_type)?;
    check_fills(rt, &mut overlay, rule, fills);
    Ok(())
}

// The square the other way round.
const CLOCKWISE_SQUARE: Points<'static> = &[(0, 2), (2, 2), (2, 0), (0, 0)];

#[test]
fn nothing_winds_below_zero_round_a_counterclockwise_square(rt: HostRuntime) -> Result<(), Fail> {
    let rule = FillRule::Negative;
    check_contours(
        &rt,
        rt.alloc(),
        &[SQUARE],
        ShapeType::Subject,
        rule,
        &[0; 4],
    )
}

#[test]
fn a_square_twice_is_not_odd(rt: HostRuntime) -> Result<(), Fail> {
    let mut overlay = builder_of(&rt, rt.alloc(), &[SQUARE, SQUARE], ShapeType::Subject)?;
    check_fills(&rt, &mut overlay, FillRule::EvenOdd, &[0; 4]);
    check_fills(&rt, &mut overlay, FillRule::NonZero, &OF_SQUARE);
    Ok(())
}

#[test]
fn a_square_there_and_back_is_nothing(rt: HostRuntime) -> Result<(), Fail> {
    let contours = [SQUARE, CLOCKWISE_SQUARE];
    check_contours(
        &rt,
        rt.alloc(),
        &contours,
        ShapeType::Clip,
        FillRule::NonZero,
        &[],
    )
}

// A triangle with a point on its lower edge.
const TRIANGLE: Points<'static> = &[(0, 0), (2, 0), (4, 0), (4, 4)];

// Checks the edges of the triangle where all points stay.
fn check_kept(
    rt: &impl Abort,
    alloc: Global,
    overlay: &mut Overlay<i32, Global>,
) -> Result<(), OverlayError> {
    overlay.clear();
    overlay.options = IntOverlayOptions::keep_all_points();
    add_contours(rt, alloc, overlay, &[TRIANGLE], ShapeType::Subject)?;
    check_fills(rt, overlay, FillRule::NonZero, &[1, 2, 1, 1]);
    Ok(())
}

#[test]
fn points_on_one_line_stay_where_they_are_wanted(rt: HostRuntime) -> Result<(), Fail> {
    let mut overlay = builder_of(&rt, rt.alloc(), &[TRIANGLE], ShapeType::Subject)?;
    check_fills(&rt, &mut overlay, FillRule::NonZero, &[1, 2, 1]);
    check_kept(&rt, rt.alloc(), &mut overlay)?;
    Ok(())
}

#[test]
fn short_contours_add_nothing(rt: HostRuntime) -> Result<(), Fail> {
    let contours: [Points<'_>; 4] = [&[], &[(0, 0)], &[(0, 0), (1, 0)], &[(0, 0); 4]];
    check_contours(
        &rt,
        rt.alloc(),
        &contours,
        ShapeType::Clip,
        FillRule::NonZero,
        &[],
    )
}

#[test]
fn a_clip_fills_its_own_bits(rt: HostRuntime) -> Result<(), Fail> {
    let fills = [8, 4, 8, 4];
    check_contours(
        &rt,
        rt.alloc(),
        &[SQUARE],
        ShapeType::Clip,
        FillRule::NonZero,
        &fills,
    )
}

// Checks the number of edges of the builder, also when asked again.
fn check_count<I: OverlayInt>(rt: &impl Abort, overlay: &mut Overlay<I, Global>, count: usize) {
    assert!(rt; edge_count(overlay, FillRule::NonZero) == Ok(count));
    assert!(rt; edge_count(overlay, FillRule::NonZero) == Ok(count));
}

// Checks the number of edges of a contour that crosses itself between the corners of a square, and of the square after
// that.
fn check_crossing<I: OverlayInt>(
    rt: &impl Abort,
    alloc: Global,
    low: I,
    high: I,
) -> Result<(), OverlayError> {
    let [a, b, c, d] = square(low, high);
    let mut overlay = builder_with(rt, alloc, &[a, c, b, d])?;
    check_crossed(rt, &mut overlay, &[a, b, c, d]);
    Ok(())
}

// Checks those numbers for a builder with the first contour, and then the second.
fn check_crossed<I: OverlayInt>(
    rt: &impl Abort,
    overlay: &mut Overlay<I, Global>,
    square: &[IntPoint<I>],
) {
    check_count(rt, overlay, 6);
    overlay.clear();
    check_answered(rt, add(rt, overlay, square, ShapeType::Subject));
    check_count(rt, overlay, 4);
}

#[test]
fn crossings_at_the_ends_of_the_range(rt: HostRuntime) -> Result<(), Fail> {
    check_crossing(&rt, rt.alloc(), -16383i16, 16383)?;
    check_crossing(&rt, rt.alloc(), -1073741823i32, 1073741823)?;
    check_crossing(
        &rt,
        rt.alloc(),
        -4611686018427387903i64,
        4611686018427387903,
    )?;
    Ok(())
}

#[test]
fn a_crossing_is_cut_in_a_whole_point(rt: HostRuntime) -> Result<(), Fail> {
    let (a, b) = (IntPoint::new(0i32, 0), IntPoint::new(10, 4));
    let (c, d) = (IntPoint::new(10i32, 0), IntPoint::new(0, 3));
    let mut overlay = builder_with(&rt, rt.alloc(), &[a, b, c, d])?;
    let crossing = IntPoint::new(4, 2);
    let wanted = [
        edge(a, d, 2),
        edge(a, crossing, 1),
        edge(d, crossing, 2),
        edge(crossing, c, 1),
        edge(crossing, b, 2),
        edge(c, b, 1),
    ];
    check_edges(&rt, &mut overlay, FillRule::NonZero, &wanted);
    Ok(())
}
