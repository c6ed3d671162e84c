//! Simplified sources, shapes and flat buffers, at each coordinate type.

use crate::builders::edge_count;
use crate::contours::add_contours;
use crate::rows::Row;
use crate::trees::gives_shapes;
use i_overlay::fill_rule::FillRule;
use i_overlay::overlay::{ContourDirection, IntOverlayOptions, Overlay, ShapeType};
use i_overlay::overlay_rule::OverlayRule;
use i_overlay::simplify::Simplify;
use i_overlay::solver::Solver;
use overlay_geom::error::OverlayError;
use overlay_geom::flat::contours::FlatContoursBuffer;
use overlay_geom::integer::OverlayInt;
use overlay_geom::resource::borrowed::{BorrowedContours, BorrowedShapes};
use small_points::contours::{Points, assert_in_range, shape_of, shapes_of};
use std::alloc::Global;
use std::process::Abort;
use std::test::Fail;

// Two squares that overlap in a corner, and the contour round both.
const OVERLAPPING: &[Points<'static>] = &[
    &[(0, 0), (4, 0), (4, 4), (0, 4)],
    &[(2, 2), (6, 2), (6, 6), (2, 6)],
];

const ROUND_BOTH: Points<'static> = &[
    (0, 4),
    (0, 0),
    (4, 0),
    (4, 2),
    (6, 2),
    (6, 6),
    (2, 6),
    (2, 4),
];

// A square that runs clockwise, and its points reversed.
const CLOCKWISE: Points<'static> = &[(0, 0), (0, 10), (10, 10), (10, 0)];

const REVERSED: Points<'static> = &[(10, 0), (10, 10), (0, 10), (0, 0)];

// A square that runs counterclockwise, and its points reversed.
const COUNTERCLOCKWISE: Points<'static> = &[(0, 0), (10, 0), (10, 10), (0, 10)];

const TURNED: Points<'static> = &[(0, 10), (10, 10), (10, 0), (0, 0)];

// A square with an area of 4, as it is given, and as it is walked.
const SMALL: Points<'static> = &[(0, 0), (2, 0), (2, 2), (0, 2)];

const SMALL_WALKED: Points<'static> = &[(0, 2), (0, 0), (2, 0), (2, 2)];

// A contour that visits a point twice, and what is left of it.
const VISITED_TWICE: Points<'static> = &[(0, 0), (-3, 2), (-3, -2), (0, 0), (-2, 1), (-2, -1)];

const VISITED_ONCE: Points<'static> = &[(-3, 2), (-3, -2), (0, 0)];

// Earlier content of a builder: contours that do not settle, so that it has failed, or a square far off.
const HELD: [&[Points<'static>]; 2] = [
    &[&[(2, 0), (0, 66), (2, -66)], &[(1, 0), (0, 67), (-1, 0)]],
    &[&[(20, 20), (30, 20), (30, 30), (20, 30)]],
];

// A builder with these options that held these contours as the subject and was asked a query, refused or not.
fn used<I: OverlayInt + From<i16>>(
    rt: &impl Abort,
    alloc: Global,
    options: IntOverlayOptions<I::WideUInt>,
    held: &[Points<'_>],
) -> Result<Overlay<I, Global>, OverlayError> {
    let mut overlay = Overlay::new_custom(alloc, 0, options, Solver::ABSOLUTE)?;
    add_contours(rt, alloc, &mut overlay, held, ShapeType::Subject)?;
    let settles = edge_count(&mut overlay, FillRule::NonZero).is_ok();
    assert!(rt; settles == (held.len() == 1));
    Ok(overlay)
}

// Checks the shapes that a source is simplified to, and the number of edges of the builder afterwards.
fn check_source<I: OverlayInt + PartialEq + From<i16>>(
    rt: &impl Abort,
    alloc: Global,
    options: IntOverlayOptions<I::WideUInt>,
    contours: &[Points<'_>],
    wanted: &[&[Points<'_>]],
    edges: usize,
) -> Result<(), OverlayError> {
    let shape = shape_of::<I>(alloc, contours)?;
    assert_in_range(rt, &shape);
    let wanted = shapes_of::<I>(alloc, wanted)?;
    for held in HELD {
        let mut overlay = used(rt, alloc, options, held)?;
        let shapes = overlay.simplify_source(&shape, FillRule::NonZero)?;
        assert!(rt; shapes == wanted);
        assert!(rt; edge_count(&mut overlay, FillRule::NonZero) == Ok(edges));
    }
    let shapes = shape.simplify(alloc, FillRule::NonZero, options)?;
    assert!(rt; shapes == wanted);
    Ok(())
}

// Checks what a shape is simplified to.
fn check_shape<I: OverlayInt + PartialEq + From<i16>>(
    rt: &impl Abort,
    alloc: Global,
    options: IntOverlayOptions<I::WideUInt>,
    contours: &[Points<'_>],
    wanted: &[&[Points<'_>]],
) -> Result<(), OverlayError> {
    let shape = shape_of::<I>(alloc, contours)?;
    assert_in_range(rt, &BorrowedContours { contours: &shape });
    for held in HELD {
        let mut overlay = used(rt, alloc, options, held)?;
        let answer = overlay.simplify_shape(&shape, FillRule::NonZero)?;
        assert!(rt; answer == Some(shapes_of(alloc, wanted)?));
    }
    Ok(())
}

// Checks that a shape of one contour stays as it is given.
fn check_given<I: OverlayInt + PartialEq + From<i16>>(
    rt: &impl Abort,
    alloc: Global,
    options: IntOverlayOptions<I::WideUInt>,
    contour: Points<'_>,
) -> Result<(), OverlayError> {
    let shape = shape_of::<I>(alloc, &[contour])?;
    assert_in_range(rt, &BorrowedContours { contours: &shape });
    for held in HELD {
        let mut overlay = used(rt, alloc, options, held)?;
        assert!(rt; overlay.simplify_shape(&shape, FillRule::NonZero)?.is_none());
    }
    Ok(())
}

// Checks what shapes are simplified to by the old name.
fn check_old_name<I: OverlayInt + PartialEq + From<i16>>(
    rt: &impl Abort,
    alloc: Global,
    shapes: &[&[Points<'_>]],
    wanted: &[&[Points<'_>]],
) -> Result<(), OverlayError> {
    let shapes = shapes_of::<I>(alloc, shapes)?;
    let shapes = BorrowedShapes { shapes: &shapes };
    assert_in_range(rt, &shapes);
    let wanted = shapes_of::<I>(alloc, wanted)?;
    for held in HELD {
        let mut overlay = used(rt, alloc, IntOverlayOptions::default(), held)?;
        let answer = overlay.simplify_shapes(shapes.shapes, FillRule::NonZero)?;
        assert!(rt; answer == wanted);
    }
    Ok(())
}

// A buffer with these contours.
fn buffer_of<I: OverlayInt + From<i16>>(
    alloc: Global,
    contours: &[Points<'_>],
) -> Result<FlatContoursBuffer<I, Global>, OverlayError> {
    let mut buffer = FlatContoursBuffer::default(alloc)?;
    for contour in shape_of::<I>(alloc, contours)? {
        buffer.add_contour(&contour)?;
    }
    Ok(buffer)
}

// Checks what the contours of a buffer are simplified to.
fn check_buffer<I: OverlayInt + PartialEq + From<i16>>(
    rt: &impl Abort,
    alloc: Global,
    options: IntOverlayOptions<I::WideUInt>,
    fill_rule: FillRule,
    contours: &[Points<'_>],
    wanted: &[Points<'_>],
) -> Result<(), OverlayError> {
    for held in HELD {
        let mut overlay = used::<I>(rt, alloc, options, held)?;
        let mut buffer = buffer_of(alloc, contours)?;
        assert_in_range(rt, &buffer);
        overlay.simplify_flat_buffer(&mut buffer, fill_rule)?;
        assert!(rt; buffer == buffer_of(alloc, wanted)?);
    }
    Ok(())
}

// With the default options.
fn check_defaults<I: OverlayInt + PartialEq + From<i16>>(
    rt: &impl Abort,
    alloc: Global,
) -> Result<(), OverlayError> {
    check_source::<I>(
        rt,
        alloc,
        IntOverlayOptions::default(),
        &[&[(-100, -100), (0, 0), (101, 100)]],
        &[&[&[(101, 100), (0, 0), (-100, -100)]]],
        3,
    )?;
    check_source::<I>(
        rt,
        alloc,
        IntOverlayOptions::default(),
        &[VISITED_TWICE],
        &[&[VISITED_ONCE]],
        6,
    )?;
    check_source::<I>(
        rt,
        alloc,
        IntOverlayOptions::default(),
        &[SMALL],
        &[&[SMALL]],
        4,
    )?;
    check_source::<I>(
        rt,
        alloc,
        IntOverlayOptions::default(),
        OVERLAPPING,
        &[&[ROUND_BOTH]],
        12,
    )?;
    check_source::<I>(rt, alloc, IntOverlayOptions::default(), &[], &[], 0)?;
    check_given::<I>(rt, alloc, IntOverlayOptions::default(), COUNTERCLOCKWISE)?;
    check_shape::<I>(
        rt,
        alloc,
        IntOverlayOptions::default(),
        &[CLOCKWISE],
        &[&[REVERSED]],
    )?;
    check_shape::<I>(
        rt,
        alloc,
        IntOverlayOptions::default(),
        OVERLAPPING,
        &[&[ROUND_BOTH]],
    )?;
    check_old_name::<I>(rt, alloc, &[&[SMALL]], &[&[SMALL_WALKED]])?;
    check_old_name::<I>(rt, alloc, &[OVERLAPPING], &[&[ROUND_BOTH]])
}

// Buffers, with the default options.
fn check_buffers<I: OverlayInt + PartialEq + From<i16>>(
    rt: &impl Abort,
    alloc: Global,
) -> Result<(), OverlayError> {
    let options = IntOverlayOptions::default();
    let rule = FillRule::NonZero;
    check_buffer::<I>(rt, alloc, options, rule, &[CLOCKWISE], &[REVERSED])?;
    check_buffer::<I>(rt, alloc, options, FillRule::Positive, &[CLOCKWISE], &[])?;
    check_buffer::<I>(rt, alloc, options, rule, &[SMALL], &[SMALL])?;
    check_buffer::<I>(rt, alloc, options, rule, &[VISITED_TWICE], &[VISITED_ONCE])?;
    check_buffer::<I>(rt, alloc, options, rule, OVERLAPPING, &[ROUND_BOTH])?;
    check_buffer::<I>(rt, alloc, options, rule, &[], &[])
}

// With clockwise output.
fn check_clockwise<I: OverlayInt + PartialEq + From<i16>>(
    rt: &impl Abort,
    alloc: Global,
) -> Result<(), OverlayError> {
    let options = IntOverlayOptions {
        output_direction: ContourDirection::Clockwise,
        ..IntOverlayOptions::default()
    };
    let rule = FillRule::NonZero;
    check_source::<I>(rt, alloc, options, &[COUNTERCLOCKWISE], &[&[TURNED]], 4)?;
    check_shape::<I>(rt, alloc, options, &[COUNTERCLOCKWISE], &[&[TURNED]])?;
    check_given::<I>(rt, alloc, options, CLOCKWISE)?;
    check_buffer::<I>(rt, alloc, options, rule, &[COUNTERCLOCKWISE], &[TURNED])
}

// A contour below the minimum area: a source of it leaves no shape, and else it stays.
fn check_minimum<I: OverlayInt + PartialEq + From<i16>>(
    rt: &impl Abort,
    alloc: Global,
    min_output_area: I::WideUInt,
) -> Result<(), OverlayError> {
    let options = IntOverlayOptions {
        min_output_area,
        ..IntOverlayOptions::default()
    };
    check_source::<I>(rt, alloc, options, &[SMALL], &[], 4)?;
    check_given::<I>(rt, alloc, options, SMALL)?;
    check_buffer::<I>(rt, alloc, options, FillRule::NonZero, &[SMALL], &[SMALL])
}

// Tests whether a contour leaves this shape, or none, with trees for any number of shapes, and with none at first.
fn is_cut_into<I: OverlayInt + PartialEq + From<i16>>(
    rt: &impl Abort,
    alloc: Global,
    contour: Points<'_>,
    fill: FillRule,
    options: IntOverlayOptions<I::WideUInt>,
    wanted: &[&[Points<'_>]],
) -> Result<bool, OverlayError> {
    let row = Row {
        subj: &[contour],
        clip: &[],
        rule: OverlayRule::Subject,
        fill,
        wanted,
    };
    gives_shapes::<I>(rt, alloc, &row, options)
}

// The contours as they are cut, and one below the minimum area.
fn check_limits<I: OverlayInt + PartialEq + From<i16>>(
    rt: &impl Abort,
    alloc: Global,
    min_output_area: I::WideUInt,
) -> Result<(), Fail> {
    let (rule, options) = (FillRule::NonZero, IntOverlayOptions::default());
    let large = IntOverlayOptions {
        min_output_area,
        ..options
    };
    let walked: Points<'_> = &[(0, 10), (0, 0), (10, 0), (10, 10)];
    let sliver: Points<'_> = &[(-100, -100), (0, 0), (101, 100)];
    let sliver_walked: Points<'_> = &[(0, 0), (-100, -100), (101, 100)];
    let negative = FillRule::Negative;
    assert!(rt; is_cut_into::<I>(rt, alloc, CLOCKWISE, FillRule::Positive, options, &[])?);
    assert!(rt; is_cut_into::<I>(rt, alloc, CLOCKWISE, negative, options, &[&[walked]])?);
    assert!(rt; is_cut_into::<I>(rt, alloc, &[(0, 0), (1, 1)], rule, options, &[])?);
    assert!(rt; is_cut_into::<I>(rt, alloc, sliver, rule, options, &[&[sliver_walked]])?);
    assert!(rt; is_cut_into::<I>(rt, alloc, VISITED_TWICE, rule, options, &[&[VISITED_ONCE]])?);
    assert!(rt; is_cut_into::<I>(rt, alloc, SMALL, rule, options, &[&[SMALL_WALKED]])?);
    assert!(rt; is_cut_into::<I>(rt, alloc, SMALL, rule, large, &[])?);
    Ok(())
}

#[test]
fn cut_by_each_limit(rt: HostRuntime) -> Result<(), Fail> {
    check_limits::<i16>(&rt, rt.alloc(), 5)?;
    check_limits::<i32>(&rt, rt.alloc(), 5)?;
    check_limits::<i64>(&rt, rt.alloc(), 5)
}

#[test]
fn simplified_at_i16(rt: HostRuntime) -> Result<(), Fail> {
    check_defaults::<i16>(&rt, rt.alloc())?;
    check_buffers::<i16>(&rt, rt.alloc())?;
    check_clockwise::<i16>(&rt, rt.alloc())?;
    Ok(check_minimum::<i16>(&rt, rt.alloc(), 5)?)
}

#[test]
fn simplified_at_i32(rt: HostRuntime) -> Result<(), Fail> {
    check_defaults::<i32>(&rt, rt.alloc())?;
    check_buffers::<i32>(&rt, rt.alloc())?;
    check_clockwise::<i32>(&rt, rt.alloc())?;
    Ok(check_minimum::<i32>(&rt, rt.alloc(), 5)?)
}

#[test]
fn simplified_at_i64(rt: HostRuntime) -> Result<(), Fail> {
    check_defaults::<i64>(&rt, rt.alloc())?;
    check_buffers::<i64>(&rt, rt.alloc())?;
    check_clockwise::<i64>(&rt, rt.alloc())?;
    Ok(check_minimum::<i64>(&rt, rt.alloc(), 5)?)
}
