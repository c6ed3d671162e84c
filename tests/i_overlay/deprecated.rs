//! The calls that the original keeps under old names, each at every coordinate type.

use i_overlay::fill_rule::FillRule;
use i_overlay::i_shape::flat::buffer::FlatContoursBuffer;
use i_overlay::overlay::{IntOverlayOptions, Overlay, ShapeType};
use i_overlay::overlay_rule::OverlayRule;
use i_overlay::solver::Solver;
use overlay_geom::error::OverlayError;
use overlay_geom::integer::OverlayInt;
use overlay_geom::point::in_range;
use overlay_geom::resource::borrowed::{BorrowedContours, BorrowedShapes};
use small_points::contours::{Points, assert_in_range, contour_of, shape_of, shapes_of};
use std::alloc::Global;
use std::process::Abort;
use std::test::Fail;

// Shapes by their contours.
type Shapes<'a> = &'a [&'a [Points<'a>]];

// Two squares that overlap in a corner.
const LOWER: Points<'static> = &[(0, 0), (4, 0), (4, 4), (0, 4)];

const UPPER: Points<'static> = &[(2, 2), (6, 2), (6, 6), (2, 6)];

// Points that both fill.
const CORNER: Shapes<'static> = &[&[&[(2, 4), (2, 2), (4, 2), (4, 4)]]];

// The lower one without the upper.
const REST: Shapes<'static> = &[&[&[(0, 4), (0, 0), (4, 0), (4, 2), (2, 2), (2, 4)]]];

// The lower square with a point in the middle of a side, which it keeps.
const LOWER_BY_FIVE: Points<'static> = &[(0, 0), (2, 0), (4, 0), (4, 4), (0, 4)];

const REST_BY_SEVEN: Shapes<'static> = &[&[&[
    (0, 4),
    (0, 0),
    (2, 0),
    (4, 0),
    (4, 2),
    (2, 2),
    (2, 4),
]]];

// The lower square alone, and with another square apart from it.
const LOWER_ALONE: Shapes<'static> = &[&[&[(0, 4), (0, 0), (4, 0), (4, 4)]]];

const APART: Points<'static> = &[(10, 0), (14, 0), (14, 4), (10, 4)];

const LOWER_AND_APART: Shapes<'static> = &[
    &[&[(0, 4), (0, 0), (4, 0), (4, 4)]],
    &[&[(10, 4), (10, 0), (14, 0), (14, 4)]],
];

// Checks the shapes that the builder gives.
fn check<I: OverlayInt + PartialEq + From<i16>>(
    rt: &impl Abort,
    alloc: Global,
    overlay: &mut Overlay<I, Global>,
    rule: OverlayRule,
    wanted: Shapes<'_>,
) -> Result<(), OverlayError> {
    let wanted = shapes_of(alloc, wanted)?;
    let shapes = overlay.overlay(rule, FillRule::EvenOdd)?;
    assert!(rt; shapes == wanted);
    Ok(())
}

// Builders with a contour as the subject and a contour as the clip.
fn check_contour<I: OverlayInt + PartialEq + From<i16>>(
    rt: &impl Abort,
    alloc: Global,
) -> Result<(), OverlayError> {
    let subj = contour_of::<I>(alloc, LOWER_BY_FIVE)?;
    let clip = contour_of::<I>(alloc, UPPER)?;
    assert!(rt; in_range(&subj));
    assert!(rt; in_range(&clip));
    let mut overlay = Overlay::with_contour(alloc, &subj, &clip)?;
    check(rt, alloc, &mut overlay, OverlayRule::Intersect, CORNER)?;
    check(rt, alloc, &mut overlay, OverlayRule::Difference, REST)?;
    let options = IntOverlayOptions::keep_all_points();
    let solver = Solver::ABSOLUTE;
    let mut overlay = Overlay::with_contour_custom(alloc, &subj, &clip, options, solver)?;
    let rule = OverlayRule::Difference;
    check(rt, alloc, &mut overlay, rule, REST_BY_SEVEN)
}

// Builders with contours as the subject and others as the clip.
fn check_contours<I: OverlayInt + PartialEq + From<i16>>(
    rt: &impl Abort,
    alloc: Global,
) -> Result<(), OverlayError> {
    let subj = shape_of::<I>(alloc, &[LOWER_BY_FIVE])?;
    let clip = shape_of::<I>(alloc, &[UPPER, APART])?;
    assert_in_range(rt, &BorrowedContours { contours: &subj });
    assert_in_range(rt, &BorrowedContours { contours: &clip });
    let mut overlay = Overlay::with_contours(alloc, &subj, &clip)?;
    check(rt, alloc, &mut overlay, OverlayRule::Difference, REST)?;
    let options = IntOverlayOptions::keep_all_points();
    let solver = Solver::ABSOLUTE;
    let mut overlay = Overlay::with_contours_custom(alloc, &subj, &clip, options, solver)?;
    let rule = OverlayRule::Difference;
    check(rt, alloc, &mut overlay, rule, REST_BY_SEVEN)
}

// Builders with shapes as the subject and others as the clip.
fn check_shapes<I: OverlayInt + PartialEq + From<i16>>(
    rt: &impl Abort,
    alloc: Global,
) -> Result<(), OverlayError> {
    let subj = shapes_of::<I>(alloc, &[&[LOWER_BY_FIVE]])?;
    let clip = shapes_of::<I>(alloc, &[&[APART], &[UPPER]])?;
    let (subj, clip) = (
        BorrowedShapes { shapes: &subj },
        BorrowedShapes { shapes: &clip },
    );
    assert_in_range(rt, &subj);
    assert_in_range(rt, &clip);
    let mut overlay = Overlay::with_shapes(alloc, subj.shapes, clip.shapes)?;
    check(rt, alloc, &mut overlay, OverlayRule::Intersect, CORNER)?;
    let options = IntOverlayOptions::keep_all_points();
    let solver = Solver::ABSOLUTE;
    let mut overlay = Overlay::with_shapes_options(
        alloc,
        subj.shapes,
        clip.shapes,
        options,
        solver,
    )?;
    let rule = OverlayRule::Difference;
    check(rt, alloc, &mut overlay, rule, REST_BY_SEVEN)
}

// A shape added as the subject, and contours as the clip.
fn check_adders_of_contours<I: OverlayInt + PartialEq + From<i16>>(
    rt: &impl Abort,
    alloc: Global,
) -> Result<(), OverlayError> {
    let subj = shape_of::<I>(alloc, &[LOWER])?;
    let clip = shape_of::<I>(alloc, &[APART, UPPER])?;
    assert_in_range(rt, &subj);
    assert_in_range(rt, &BorrowedContours { contours: &clip });
    let mut overlay = Overlay::new(alloc, 0)?;
    overlay.add_shape(&subj, ShapeType::Subject)?;
    overlay.add_contours(&clip, ShapeType::Clip)?;
    check(rt, alloc, &mut overlay, OverlayRule::Difference, REST)
}

// Two shapes added as the subject.
fn check_adder_of_shapes<I: OverlayInt + PartialEq + From<i16>>(
    rt: &impl Abort,
    alloc: Global,
) -> Result<(), OverlayError> {
    let subj = shapes_of::<I>(alloc, &[&[LOWER], &[APART]])?;
    let subj = BorrowedShapes { shapes: &subj };
    assert_in_range(rt, &subj);
    let mut overlay = Overlay::new(alloc, 0)?;
    overlay.add_shapes(subj.shapes, ShapeType::Subject)?;
    let rule = OverlayRule::Subject;
    check(rt, alloc, &mut overlay, rule, LOWER_AND_APART)
}

// A flat buffer added as the subject. Of its two ranges the second is not inside its points.
fn check_adder_of_buffer<I: OverlayInt + PartialEq + From<i16>>(
    rt: &impl Abort,
    alloc: Global,
) -> Result<(), OverlayError> {
    let buffer = FlatContoursBuffer {
        points: contour_of::<I>(alloc, LOWER)?,
        ranges: Vec::from_array(alloc, [0..4, 2..9])?,
    };
    assert_in_range(rt, &buffer);
    let mut overlay = Overlay::new(alloc, 0)?;
    overlay.add_flat_buffer(&buffer, ShapeType::Subject)?;
    check(rt, alloc, &mut overlay, OverlayRule::Subject, LOWER_ALONE)
}

// Each of the calls, at a coordinate type.
fn check_calls<I: OverlayInt + PartialEq + From<i16>>(
    rt: &impl Abort,
    alloc: Global,
) -> Result<(), OverlayError> {
    check_contour::<I>(rt, alloc)?;
    check_contours::<I>(rt, alloc)?;
    check_shapes::<I>(rt, alloc)?;
    check_adders_of_contours::<I>(rt, alloc)?;
    check_adder_of_shapes::<I>(rt, alloc)?;
    check_adder_of_buffer::<I>(rt, alloc)
}

#[test]
fn old_names_at_i16(rt: HostRuntime) -> Result<(), Fail> {
    Ok(check_calls::<i16>(&rt, rt.alloc())?)
}

#[test]
fn old_names_at_i32(rt: HostRuntime) -> Result<(), Fail> {
    Ok(check_calls::<i32>(&rt, rt.alloc())?)
}

#[test]
fn old_names_at_i64(rt: HostRuntime) -> Result<(), Fail> {
    Ok(check_calls::<i64>(&rt, rt.alloc())?)
}
