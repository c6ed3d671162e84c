//! Builders that are asked again: as they are, with more in them, and under another rule.

use crate::asked::{assert_contour, assert_shape, assert_shapes, points};
use overlay_geom::error::OverlayError;
use overlay_geom::fill_rule::FillRule;
use overlay_geom::integer::OverlayInt;
use overlay_geom::path::{IntShape, IntShapes};
use overlay_relate::predicate_overlay::{PredicateOverlay, ShapeType};
use std::alloc::Global;
use std::process::Abort;
use std::test::Fail;

pub(crate) const SQUARE: [[i16; 2]; 4] = [[0, 0], [4, 0], [4, 4], [0, 4]];

const CLOCKWISE: [[i16; 2]; 4] = [[0, 0], [0, 4], [4, 4], [4, 0]];

pub(crate) const AT_A_CORNER: [[i16; 2]; 4] = [[4, 4], [6, 4], [6, 6], [4, 6]];

pub(crate) const ALONG: [[i16; 2]; 4] = [[4, 0], [6, 0], [6, 4], [4, 4]];

pub(crate) const INSIDE: [[i16; 2]; 4] = [[1, 1], [3, 1], [3, 3], [1, 3]];

// Answers for shapes that are apart, that meet in a corner or along an edge, for a subject in the clip or round it, and
// for equal shapes.
pub(crate) const APART: [bool; 6] = [false, false, false, false, false, false];

pub(crate) const CORNERED: [bool; 6] = [true, false, true, true, false, false];

pub(crate) const BORDERING: [bool; 6] = [true, false, true, false, false, false];

pub(crate) const OVER: [bool; 6] = [true, true, false, false, false, false];

pub(crate) const WITHIN: [bool; 6] = [true, true, false, false, true, false];

pub(crate) const COVERING: [bool; 6] = [true, true, false, false, false, true];

pub(crate) const EQUAL: [bool; 6] = [true, true, false, false, true, true];

pub(crate) type Built<I> = PredicateOverlay<I, Global>;

/// Answers of the six predicates, in the order intersects, interiors_intersect, touches, point_intersects, within,
/// covers.
pub(crate) fn asked<I: OverlayInt>(overlay: &mut Built<I>) -> Result<[bool; 6], OverlayError> {
    Ok([
        overlay.intersects()?,
        overlay.interiors_intersect()?,
        overlay.touches()?,
        overlay.point_intersects()?,
        overlay.within()?,
        overlay.covers()?,
    ])
}

// Tests whether they answer so, twice.
fn is_answered<I: OverlayInt>(
    overlay: &mut Built<I>,
    wanted: [bool; 6],
) -> Result<bool, OverlayError> {
    Ok(asked(overlay)? == wanted && asked(overlay)? == wanted)
}

pub(crate) fn add<I: OverlayInt + From<i16>>(
    rt: &impl Abort,
    overlay: &mut Built<I>,
    contour: &[[i16; 2]],
    shape_type: ShapeType,
    alloc: Global,
) -> Result<(), Fail> {
    let contour = points::<I>(alloc, contour)?;
    assert_contour(rt, &contour);
    overlay.add_contour(&contour, shape_type)?;
    Ok(())
}

fn with_more<I: OverlayInt + From<i16>>(rt: &impl Abort, alloc: Global) -> Result<(), Fail> {
    let mut overlay: Built<I> = PredicateOverlay::new(alloc, 0)?;
    assert!(rt; is_answered(&mut overlay, APART)?);
    add(rt, &mut overlay, &SQUARE, ShapeType::Subject, alloc)?;
    assert!(rt; is_answered(&mut overlay, APART)?);
    add(rt, &mut overlay, &AT_A_CORNER, ShapeType::Clip, alloc)?;
    assert!(rt; is_answered(&mut overlay, CORNERED)?);
    add(rt, &mut overlay, &ALONG, ShapeType::Clip, alloc)?;
    assert!(rt; is_answered(&mut overlay, BORDERING)?);
    add(rt, &mut overlay, &INSIDE, ShapeType::Clip, alloc)?;
    assert!(rt; is_answered(&mut overlay, OVER)?);
    overlay.clear();
    assert!(rt; is_answered(&mut overlay, APART)?);
    add(rt, &mut overlay, &INSIDE, ShapeType::Subject, alloc)?;
    add(rt, &mut overlay, &SQUARE, ShapeType::Clip, alloc)?;
    assert!(rt; is_answered(&mut overlay, WITHIN)?);
    overlay.clear();
    add(rt, &mut overlay, &INSIDE, ShapeType::Clip, alloc)?;
    add(rt, &mut overlay, &SQUARE, ShapeType::Subject, alloc)?;
    assert!(rt; is_answered(&mut overlay, COVERING)?);
    Ok(())
}

fn under_other_rules<I: OverlayInt + From<i16>>(
    rt: &impl Abort,
    alloc: Global,
) -> Result<(), Fail> {
    let mut overlay: Built<I> = PredicateOverlay::new(alloc, 0)?;
    add(rt, &mut overlay, &CLOCKWISE, ShapeType::Subject, alloc)?;
    add(rt, &mut overlay, &CLOCKWISE, ShapeType::Clip, alloc)?;
    assert!(rt; is_answered(&mut overlay, EQUAL)?);
    overlay.fill_rule = FillRule::Positive;
    assert!(rt; is_answered(&mut overlay, APART)?);
    overlay.fill_rule = FillRule::Negative;
    assert!(rt; is_answered(&mut overlay, EQUAL)?);
    for shape_type in [ShapeType::Subject, ShapeType::Clip] {
        add(rt, &mut overlay, &SQUARE, shape_type, alloc)?;
        add(rt, &mut overlay, &SQUARE, shape_type, alloc)?;
    }
    assert!(rt; is_answered(&mut overlay, APART)?);
    overlay.fill_rule = FillRule::Positive;
    assert!(rt; is_answered(&mut overlay, EQUAL)?);
    overlay.fill_rule = FillRule::EvenOdd;
    assert!(rt; is_answered(&mut overlay, EQUAL)?);
    Ok(())
}

#[test]
fn after_more_was_added(rt: HostRuntime) -> Result<(), Fail> {
    with_more::<i16>(&rt, rt.alloc())?;
    with_more::<i32>(&rt, rt.alloc())?;
    with_more::<i64>(&rt, rt.alloc())
}

#[test]
fn under_another_rule(rt: HostRuntime) -> Result<(), Fail> {
    under_other_rules::<i16>(&rt, rt.alloc())?;
    under_other_rules::<i32>(&rt, rt.alloc())?;
    under_other_rules::<i64>(&rt, rt.alloc())
}

// The square at the corner, as a shape.
fn clip<I: OverlayInt + From<i16>>(
    rt: &impl Abort,
    alloc: Global,
) -> Result<IntShape<I, Global>, Fail> {
    let mut shape = Vec::new(alloc);
    shape.push(points::<I>(alloc, &AT_A_CORNER)?)?;
    assert_shape(rt, &shape);
    Ok(shape)
}

// A builder with the square as the subject, which was asked.
fn asked_before<I: OverlayInt + From<i16>>(
    rt: &impl Abort,
    alloc: Global,
) -> Result<Built<I>, Fail> {
    let mut overlay: Built<I> = PredicateOverlay::new(alloc, 0)?;
    add(rt, &mut overlay, &SQUARE, ShapeType::Subject, alloc)?;
    assert!(rt; is_answered(&mut overlay, APART)?);
    Ok(overlay)
}

// Any call that adds the clip changes the answers.
#[test]
fn after_each_adder(rt: HostRuntime) -> Result<(), Fail> {
    let alloc = rt.alloc();
    let contour = points::<i32>(alloc, &AT_A_CORNER)?;
    let shape = clip::<i32>(&rt, alloc)?;
    let mut overlay = asked_before::<i32>(&rt, alloc)?;
    overlay.add_path_iter(contour.iter().copied(), ShapeType::Clip)?;
    assert!(&rt; is_answered(&mut overlay, CORNERED)?);
    let mut overlay = asked_before::<i32>(&rt, alloc)?;
    overlay.add_source(&shape, ShapeType::Clip)?;
    assert!(&rt; is_answered(&mut overlay, CORNERED)?);
    let mut overlay = asked_before::<i32>(&rt, alloc)?;
    overlay.add_contours(&shape, ShapeType::Clip)?;
    assert!(&rt; is_answered(&mut overlay, CORNERED)?);
    let mut overlay = asked_before::<i32>(&rt, alloc)?;
    overlay.add_shape(&shape, ShapeType::Clip)?;
    assert!(&rt; is_answered(&mut overlay, CORNERED)?);
    let mut overlay = asked_before::<i32>(&rt, alloc)?;
    let mut shapes: IntShapes<i32, Global> = Vec::new(alloc);
    shapes.push(clip::<i32>(&rt, alloc)?)?;
    assert_shapes(&rt, &shapes);
    overlay.add_shapes(&shapes, ShapeType::Clip)?;
    assert!(&rt; is_answered(&mut overlay, CORNERED)?);
    overlay.reinit_with_subj_and_clip(&shape, &shape)?;
    assert!(&rt; is_answered(&mut overlay, EQUAL)?);
    Ok(())
}
