//! Queries of overlays and their expected answers, row by row.

use crate::alone::rows_are_alone;
use crate::builders::check_fills;
use crate::contours::add_contours;
use crate::trees::gives_shapes;
use i_overlay::fill_rule::FillRule;
use i_overlay::overlay::{ContourDirection, IntOverlayOptions, Overlay, ShapeType};
use i_overlay::overlay_rule::OverlayRule;
use i_overlay::solver::Solver;
use overlay_geom::error::OverlayError;
use overlay_geom::integer::OverlayInt;
use small_points::contours::{Points, shapes_of};
use std::alloc::Global;
use std::process::Abort;
use std::test::Fail;

/// The query of an overlay, and the expected shapes.
#[derive(Drop)]
pub(crate) struct Row<'a> {
    /// The contours of the subject.
    pub(crate) subj: &'a [Points<'a>],
    /// The contours of the clip.
    pub(crate) clip: &'a [Points<'a>],
    /// The overlay rule.
    pub(crate) rule: OverlayRule,
    /// The fill rule.
    pub(crate) fill: FillRule,
    /// The shapes that the answer has.
    pub(crate) wanted: &'a [&'a [Points<'a>]],
}

/// A builder with the row's contours and these options.
pub(crate) fn builder_of<I: OverlayInt + From<i16>>(
    rt: &impl Abort,
    alloc: Global,
    row: &Row<'_>,
    options: IntOverlayOptions<I::WideUInt>,
) -> Result<Overlay<I, Global>, OverlayError> {
    let mut overlay = Overlay::new_custom(alloc, 0, options, Solver::ABSOLUTE)?;
    add_contours(rt, alloc, &mut overlay, row.subj, ShapeType::Subject)?;
    add_contours(rt, alloc, &mut overlay, row.clip, ShapeType::Clip)?;
    Ok(overlay)
}

// Tests whether the builder answers the row's shapes.
fn answers<I: OverlayInt + PartialEq + From<i16>>(
    alloc: Global,
    overlay: &mut Overlay<I, Global>,
    row: &Row<'_>,
) -> Result<bool, OverlayError> {
    let wanted = shapes_of(alloc, row.wanted)?;
    let shapes = overlay.overlay(row.rule, row.fill)?;
    Ok(shapes == wanted)
}

// Tests whether a builder with the row's contours answers its shapes by each solver, and again by rounds. They must
// also come with trees for any number of shapes, and with none at first.
fn holds<I: OverlayInt + PartialEq + From<i16>>(
    rt: &impl Abort,
    alloc: Global,
    row: &Row<'_>,
    options: IntOverlayOptions<I::WideUInt>,
) -> Result<bool, OverlayError> {
    let mut overlay = builder_of(rt, alloc, row, options)?;
    let first = answers::<I>(alloc, &mut overlay, row) == Ok(true);
    let again = answers::<I>(alloc, &mut overlay, row) == Ok(true);
    let mut snapped = builder_of(rt, alloc, row, options)?;
    snapped.solver = Solver::SNAPPED;
    let by_snapping = answers::<I>(alloc, &mut snapped, row) == Ok(true);
    let by_each = gives_shapes::<I>(rt, alloc, row, options) == Ok(true);
    Ok(first && again && by_snapping && by_each)
}

/// Checks the row with the default options.
pub(crate) fn check<I: OverlayInt + PartialEq + From<i16>>(
    rt: &impl Abort,
    alloc: Global,
    row: &Row<'_>,
) -> Result<(), Fail> {
    assert!(rt; holds::<I>(rt, alloc, row, IntOverlayOptions::default())?);
    assert!(rt; rows_are_alone::<I>(alloc, row.wanted, 1)?);
    Ok(())
}

/// Checks the row with the default options at each coordinate type.
pub(crate) fn check_wide(rt: &impl Abort, alloc: Global, row: &Row<'_>) -> Result<(), Fail> {
    check::<i16>(rt, alloc, row)?;
    check::<i32>(rt, alloc, row)?;
    check::<i64>(rt, alloc, row)
}

/// Checks the row with clockwise output.
pub(crate) fn check_clockwise<I: OverlayInt + PartialEq + From<i16>>(
    rt: &impl Abort,
    alloc: Global,
    row: &Row<'_>,
) -> Result<(), Fail> {
    let clockwise = IntOverlayOptions {
        output_direction: ContourDirection::Clockwise,
        ..IntOverlayOptions::default()
    };
    assert!(rt; holds::<I>(rt, alloc, row, clockwise)?);
    assert!(rt; rows_are_alone::<I>(alloc, row.wanted, -1)?);
    Ok(())
}

/// Checks the row where collinear points stay.
pub(crate) fn check_kept<I: OverlayInt + PartialEq + From<i16>>(
    rt: &impl Abort,
    alloc: Global,
    row: &Row<'_>,
) -> Result<(), Fail> {
    assert!(rt; holds::<I>(rt, alloc, row, IntOverlayOptions::keep_all_points())?);
    assert!(rt; rows_are_alone::<I>(alloc, row.wanted, 1)?);
    Ok(())
}

/// Checks the row where no contour visits a point twice.
pub(crate) fn check_ogc<I: OverlayInt + PartialEq + From<i16>>(
    rt: &impl Abort,
    alloc: Global,
    row: &Row<'_>,
) -> Result<(), Fail> {
    assert!(rt; holds::<I>(rt, alloc, row, IntOverlayOptions::ogc())?);
    assert!(rt; rows_are_alone::<I>(alloc, row.wanted, 1)?);
    Ok(())
}

/// Checks the row where no contour visits a point twice, with clockwise output.
pub(crate) fn check_ogc_clockwise<I: OverlayInt + PartialEq + From<i16>>(
    rt: &impl Abort,
    alloc: Global,
    row: &Row<'_>,
) -> Result<(), Fail> {
    let clockwise = IntOverlayOptions {
        output_direction: ContourDirection::Clockwise,
        ..IntOverlayOptions::ogc()
    };
    assert!(rt; holds::<I>(rt, alloc, row, clockwise)?);
    assert!(rt; rows_are_alone::<I>(alloc, row.wanted, -1)?);
    Ok(())
}

/// Checks the row with this minimum area.
pub(crate) fn check_minimum<I: OverlayInt + PartialEq + From<i16>>(
    rt: &impl Abort,
    alloc: Global,
    row: &Row<'_>,
    min_output_area: I::WideUInt,
) -> Result<(), Fail> {
    let options = IntOverlayOptions {
        min_output_area,
        ..IntOverlayOptions::default()
    };
    assert!(rt; holds::<I>(rt, alloc, row, options)?);
    Ok(())
}

/// Checks the fills of the edges of the row's contours.
pub(crate) fn check_edges<I: OverlayInt + From<i16>>(
    rt: &impl Abort,
    alloc: Global,
    row: &Row<'_>,
    fills: &[u8],
) -> Result<(), Fail> {
    let mut overlay = builder_of::<I>(rt, alloc, row, IntOverlayOptions::default())?;
    check_fills(rt, &mut overlay, row.fill, fills);
    Ok(())
}
