//! Contours across the whole coordinate range, at each coordinate type.

use i_overlay::fill_rule::FillRule;
use i_overlay::i_float::int::point::IntPoint;
use i_overlay::i_shape::int::shape::{IntContour, IntShape, IntShapes};
use i_overlay::integer::OverlayInt;
use i_overlay::overlay::{IntOverlayOptions, Overlay, ShapeType};
use i_overlay::overlay_rule::OverlayRule;
use i_overlay::solver::Solver;
use overlay_geom::error::OverlayError;
use overlay_geom::point::in_range;
use std::alloc::Global;
use std::process::Abort;

/// A coordinate type with its greatest coordinate.
pub(crate) trait Wide: OverlayInt + PartialEq {
    /// The greatest coordinate.
    fn most() -> i64;

    /// The coordinate that is this number, which is in range.
    fn at(number: i64) -> Self;
}

impl Wide for i16 {
    fn most() -> i64 {
        16383
    }

    fn at(number: i64) -> i16 {
        number as i16
    }
}

impl Wide for i32 {
    fn most() -> i64 {
        1073741823
    }

    fn at(number: i64) -> i32 {
        number as i32
    }
}

impl Wide for i64 {
    fn most() -> i64 {
        4611686018427387903
    }

    fn at(number: i64) -> i64 {
        number
    }
}

/// Points by their coordinates.
pub(crate) type Places<'a> = &'a [(i64, i64)];

/// The point with these coordinates.
pub(crate) fn point_at<I: Wide>(place: (i64, i64)) -> IntPoint<I> {
    IntPoint {
        x: I::at(place.0),
        y: I::at(place.1),
    }
}

/// The contour through these points, which are in range.
pub(crate) fn wide_contour<I: Wide>(
    rt: &impl Abort,
    alloc: Global,
    places: Places<'_>,
) -> Result<IntContour<I, Global>, OverlayError> {
    let mut contour = Vec::new(alloc);
    for place in places {
        contour.push(point_at(*place))?;
    }
    assert!(rt; in_range(&contour));
    Ok(contour)
}

/// The contours through these points.
pub(crate) fn wide_shape<I: Wide>(
    rt: &impl Abort,
    alloc: Global,
    contours: &[Places<'_>],
) -> Result<IntShape<I, Global>, OverlayError> {
    let mut shape = Vec::new(alloc);
    for places in contours {
        shape.push(wide_contour(rt, alloc, places)?)?;
    }
    Ok(shape)
}

/// The shapes of these contours.
pub(crate) fn wide_shapes<I: Wide>(
    rt: &impl Abort,
    alloc: Global,
    shapes: &[&[Places<'_>]],
) -> Result<IntShapes<I, Global>, OverlayError> {
    let mut all = Vec::new(alloc);
    for contours in shapes {
        all.push(wide_shape(rt, alloc, contours)?)?;
    }
    Ok(all)
}

/// A builder with contours of a subject and of a clip.
pub(crate) fn wide_builder<I: Wide>(
    rt: &impl Abort,
    alloc: Global,
    subj: &[Places<'_>],
    clip: &[Places<'_>],
    options: IntOverlayOptions<I::WideUInt>,
) -> Result<Overlay<I, Global>, OverlayError> {
    let mut overlay = Overlay::new_custom(alloc, 0, options, Solver::ABSOLUTE)?;
    overlay.add_contours(&wide_shape::<I>(rt, alloc, subj)?, ShapeType::Subject)?;
    overlay.add_contours(&wide_shape::<I>(rt, alloc, clip)?, ShapeType::Clip)?;
    Ok(overlay)
}

/// Checks the shapes of one contour each in an overlay, with `ogc` and without.
pub(crate) fn check_lone<I: Wide>(
    rt: &impl Abort,
    alloc: Global,
    both: [&[Places<'_>]; 2],
    rule: OverlayRule,
    fill: FillRule,
    wanted: &[Places<'_>],
) -> Result<(), OverlayError> {
    for options in [IntOverlayOptions::default(), IntOverlayOptions::ogc()] {
        let mut overlay = wide_builder::<I>(rt, alloc, both[0], both[1], options)?;
        let shapes = overlay.overlay(rule, fill)?;
        assert!(rt; shapes.len() == wanted.len(), "{} shapes", shapes.len());
        for (shape, places) in shapes.iter().zip(wanted) {
            let is_so = shape.len() == 1 && shape[0] == wide_contour(rt, alloc, places)?;
            assert!(rt; is_so, "a shape of {} contours", shape.len());
        }
    }
    Ok(())
}
