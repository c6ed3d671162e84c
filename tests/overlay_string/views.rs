//! Views of a shape and strings, and the shapes that are extracted from them, at each coordinate type.

use crate::points::{NARROW, WIDE, are_shapes};
use overlay_builder::solver::Solver;
use overlay_geom::error::OverlayError;
use overlay_geom::fill_rule::FillRule;
use overlay_geom::integer::OverlayInt;
use overlay_geom::options::ContourDirection;
use overlay_geom::point::in_range;
use overlay_string::string_graph::StringGraph;
use overlay_string::string_overlay::{IntOverlayOptions, StringOverlay};
use overlay_string::string_rule::StringRule;
use small_points::contours::{Points, contour_of};
use std::alloc::Global;
use std::process::Abort;
use std::test::Fail;

// The outlines round the wide square, and round the narrow square, which is cut out of it.
const WIDE_ROUND: Points<'static> = &[(10, -10), (10, 10), (-10, 10), (-10, -10)];

const NARROW_ROUND: Points<'static> = &[(5, -5), (5, 5), (-5, 5), (-5, -5)];

// The wide square, walked the other way.
const WIDE_BACK: Points<'static> = &[(-10, -10), (-10, 10), (10, 10), (10, -10)];

// The wide square, cut along the narrow square.
const CUT: &[&[Points<'static>]] = &[&[WIDE_ROUND, NARROW], &[NARROW_ROUND]];

// The cut squares with clockwise outlines.
const CUT_CLOCKWISE: &[&[Points<'static>]] = &[&[WIDE_BACK, NARROW_ROUND], &[NARROW]];

// Without what the narrow square bounds.
const OUTLINE: &[&[Points<'static>]] = &[&[WIDE_ROUND]];

// Adds a contour of the shape.
fn add_shape<I: OverlayInt + From<i16>>(
    rt: &impl Abort,
    alloc: Global,
    overlay: &mut StringOverlay<I, Global>,
    contour: Points<'_>,
) -> Result<(), OverlayError> {
    let contour = contour_of::<I>(alloc, contour)?;
    assert!(rt; in_range(&contour));
    overlay.add_shape_contour(&contour)
}

// Adds a closed string.
fn add_string<I: OverlayInt + From<i16>>(
    rt: &impl Abort,
    alloc: Global,
    overlay: &mut StringOverlay<I, Global>,
    contour: Points<'_>,
) -> Result<(), OverlayError> {
    let contour = contour_of::<I>(alloc, contour)?;
    assert!(rt; in_range(&contour));
    overlay.add_string_contour(&contour)
}

// A builder with these contours and closed strings.
fn builder<I: OverlayInt + From<i16>>(
    rt: &impl Abort,
    alloc: Global,
    contours: &[Points<'_>],
    strings: &[Points<'_>],
) -> Result<StringOverlay<I, Global>, OverlayError> {
    let mut overlay = StringOverlay::new(alloc, 8)?;
    for contour in contours {
        add_shape(rt, alloc, &mut overlay, contour)?;
    }
    for string in strings {
        add_string(rt, alloc, &mut overlay, string)?;
    }
    Ok(overlay)
}

// Tests whether the view gives these shapes.
fn shows<I: OverlayInt + PartialEq + From<i16>>(
    alloc: Global,
    view: &StringGraph<'_, I, Global>,
    wanted: &[&[Points<'_>]],
) -> Result<bool, OverlayError> {
    let shapes = view.extract_shapes(StringRule::Slice)?;
    are_shapes(alloc, &shapes, wanted)
}

// Tests whether it gives these by the options.
fn shows_by<I: OverlayInt + PartialEq + From<i16>>(
    alloc: Global,
    view: &StringGraph<'_, I, Global>,
    options: IntOverlayOptions<I::WideUInt>,
    wanted: &[&[Points<'_>]],
) -> Result<bool, OverlayError> {
    let shapes = view.extract_shapes_custom(StringRule::Slice, options)?;
    are_shapes(alloc, &shapes, wanted)
}

// Tests whether a view of the wide square with the narrow square as a closed string gives these shapes, asked twice.
fn is_viewed<I: OverlayInt + PartialEq + From<i16>>(
    rt: &impl Abort,
    alloc: Global,
    wanted: &[&[Points<'_>]],
) -> Result<bool, Fail> {
    let mut overlay = builder::<I>(rt, alloc, &[WIDE], &[NARROW])?;
    let Some(view) = overlay.build_graph_view(FillRule::NonZero)? else {
        return Ok(false);
    };
    Ok(shows(alloc, &view, wanted)? && shows(alloc, &view, wanted)?)
}

// Tests whether it gives these by the options.
fn is_viewed_by<I: OverlayInt + PartialEq + From<i16>>(
    rt: &impl Abort,
    alloc: Global,
    options: IntOverlayOptions<I::WideUInt>,
    wanted: &[&[Points<'_>]],
) -> Result<bool, Fail> {
    let mut overlay = builder::<I>(rt, alloc, &[WIDE], &[NARROW])?;
    let Some(view) = overlay.build_graph_view(FillRule::NonZero)? else {
        return Ok(false);
    };
    Ok(shows_by(alloc, &view, options, wanted)?)
}

// Tests whether a view of the builder by the fill rule, with a solver, gives these.
fn shows_filled<I: OverlayInt + PartialEq + From<i16>>(
    alloc: Global,
    overlay: &mut StringOverlay<I, Global>,
    fill_rule: FillRule,
    wanted: &[&[Points<'_>]],
) -> Result<bool, OverlayError> {
    let Some(view) = overlay.build_graph_view_with_solver(fill_rule, Solver::ABSOLUTE)? else {
        return Ok(false);
    };
    shows(alloc, &view, wanted)
}

// Tests whether what is filled depends on the rule alone, not on an earlier view of the same builder.
fn is_filled_by_rules<I: OverlayInt + PartialEq + From<i16>>(
    rt: &impl Abort,
    alloc: Global,
) -> Result<bool, Fail> {
    let mut overlay = builder::<I>(rt, alloc, &[WIDE], &[NARROW])?;
    Ok(
        shows_filled(alloc, &mut overlay, FillRule::Negative, &[])?
            && shows_filled(alloc, &mut overlay, FillRule::EvenOdd, CUT)?,
    )
}

// Tests whether outlines are clockwise where that is asked for.
fn is_viewed_clockwise<I: OverlayInt + PartialEq + From<i16>>(
    rt: &impl Abort,
    alloc: Global,
) -> Result<bool, Fail> {
    let clockwise = IntOverlayOptions {
        output_direction: ContourDirection::Clockwise,
        ..IntOverlayOptions::default()
    };
    is_viewed_by::<I>(rt, alloc, clockwise, CUT_CLOCKWISE)
}

// Tests whether contours below the minimum area are left out.
fn is_viewed_from<I: OverlayInt + PartialEq + From<i16>>(
    rt: &impl Abort,
    alloc: Global,
    min_output_area: I::WideUInt,
    wanted: &[&[Points<'_>]],
) -> Result<bool, Fail> {
    let options = IntOverlayOptions {
        min_output_area,
        ..IntOverlayOptions::default()
    };
    is_viewed_by::<I>(rt, alloc, options, wanted)
}

// Tests whether there is a view of these.
fn has_view<I: OverlayInt + From<i16>>(
    rt: &impl Abort,
    alloc: Global,
    contours: &[Points<'_>],
    strings: &[Points<'_>],
) -> Result<bool, Fail> {
    let mut overlay = builder::<I>(rt, alloc, contours, strings)?;
    Ok(overlay.build_graph_view(FillRule::NonZero)?.is_some())
}

// Tests whether there is a view with a solver.
fn has_view_with_solver<I: OverlayInt + From<i16>>(
    rt: &impl Abort,
    alloc: Global,
    contours: &[Points<'_>],
    strings: &[Points<'_>],
) -> Result<bool, Fail> {
    let mut overlay = builder::<I>(rt, alloc, contours, strings)?;
    let view = overlay.build_graph_view_with_solver(FillRule::NonZero, Solver::ABSOLUTE)?;
    Ok(view.is_some())
}

// Tests whether a view of a closed string alone gives no shape.
fn is_viewed_without_shape<I: OverlayInt + PartialEq + From<i16>>(
    rt: &impl Abort,
    alloc: Global,
) -> Result<bool, Fail> {
    let mut overlay = builder::<I>(rt, alloc, &[], &[NARROW])?;
    Ok(shows_filled(alloc, &mut overlay, FillRule::NonZero, &[])?)
}

// Extractions by default and by options; the options for points and for groups are not read.
fn extracted<I: OverlayInt + PartialEq + From<i16>>(
    rt: &impl Abort,
    alloc: Global,
) -> Result<(), Fail> {
    let points = IntOverlayOptions::keep_all_points();
    assert!(rt; is_viewed::<I>(rt, alloc, CUT)?);
    assert!(rt; is_viewed_clockwise::<I>(rt, alloc)?);
    assert!(rt; is_viewed_by::<I>(rt, alloc, IntOverlayOptions::ogc(), CUT)?);
    assert!(rt; is_viewed_by::<I>(rt, alloc, points, CUT)?);
    assert!(rt; is_filled_by_rules::<I>(rt, alloc)?);
    assert!(rt; is_viewed_without_shape::<I>(rt, alloc)?);
    Ok(())
}

// There is no view exactly where no edge is left: of nothing, and of a contour and its reverse.
fn present<I: OverlayInt + From<i16>>(rt: &impl Abort, alloc: Global) -> Result<(), Fail> {
    let cancelled: &[Points<'_>] = &[NARROW, NARROW_ROUND];
    assert!(rt; !has_view::<I>(rt, alloc, &[], &[])?);
    assert!(rt; !has_view::<I>(rt, alloc, cancelled, &[])?);
    assert!(rt; has_view::<I>(rt, alloc, cancelled, &[NARROW])?);
    assert!(rt; has_view::<I>(rt, alloc, &[NARROW], &[])?);
    Ok(())
}

// Extractions with a solver.
fn present_with_solver<I: OverlayInt + From<i16>>(
    rt: &impl Abort,
    alloc: Global,
) -> Result<(), Fail> {
    let cancelled: &[Points<'_>] = &[NARROW, NARROW_ROUND];
    assert!(rt; !has_view_with_solver::<I>(rt, alloc, &[], &[])?);
    assert!(rt; !has_view_with_solver::<I>(rt, alloc, cancelled, &[])?);
    assert!(rt; has_view_with_solver::<I>(rt, alloc, cancelled, &[NARROW])?);
    assert!(rt; has_view_with_solver::<I>(rt, alloc, &[NARROW], &[])?);
    Ok(())
}

// Minimum areas: the narrow square has an area of 100, the wide square of 400.
fn minimums<I: OverlayInt + PartialEq + From<i16>>(
    rt: &impl Abort,
    alloc: Global,
    areas: [I::WideUInt; 4],
) -> Result<(), Fail> {
    assert!(rt; is_viewed_from::<I>(rt, alloc, areas[0], CUT)?);
    assert!(rt; is_viewed_from::<I>(rt, alloc, areas[1], OUTLINE)?);
    assert!(rt; is_viewed_from::<I>(rt, alloc, areas[2], OUTLINE)?);
    assert!(rt; is_viewed_from::<I>(rt, alloc, areas[3], &[])?);
    Ok(())
}

#[test]
fn extracted_shapes(rt: HostRuntime) -> Result<(), Fail> {
    extracted::<i16>(&rt, rt.alloc())?;
    extracted::<i32>(&rt, rt.alloc())?;
    extracted::<i64>(&rt, rt.alloc())
}

#[test]
fn views_where_edges_are(rt: HostRuntime) -> Result<(), Fail> {
    present::<i16>(&rt, rt.alloc())?;
    present::<i32>(&rt, rt.alloc())?;
    present::<i64>(&rt, rt.alloc())
}

#[test]
fn views_with_a_solver(rt: HostRuntime) -> Result<(), Fail> {
    present_with_solver::<i16>(&rt, rt.alloc())?;
    present_with_solver::<i32>(&rt, rt.alloc())?;
    present_with_solver::<i64>(&rt, rt.alloc())
}

#[test]
fn minimum_areas(rt: HostRuntime) -> Result<(), Fail> {
    minimums::<i16>(&rt, rt.alloc(), [100, 101, 400, 401])?;
    minimums::<i32>(&rt, rt.alloc(), [100, 101, 400, 401])?;
    minimums::<i64>(&rt, rt.alloc(), [100, 101, 400, 401])
}
