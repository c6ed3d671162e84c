//! Constructors and adders on a subject and a clip side by side, at each coordinate type.

use crate::builders::{
    add_points, add_source, check_answered, check_fills, from_subj, from_subj_and_clip,
    from_subj_and_clip_custom, from_subj_custom, reinit_with_subj, reinit_with_subj_and_clip,
};
use crate::contours::{OF_SQUARE, SQUARE};
use i_overlay::fill_rule::FillRule;
use i_overlay::overlay::{IntOverlayOptions, Overlay, ShapeType};
use i_overlay::solver::Solver;
use overlay_geom::error::OverlayError;
use overlay_geom::integer::OverlayInt;
use overlay_geom::path::PathRef;
use small_points::contours::{Points, contour_of, shape_of};
use std::alloc::Global;
use std::process::Abort;
use std::test::Fail;

// The square on the right of the subject: the clip.
const RIGHT: Points<'static> = &[(2, 0), (4, 0), (4, 2), (2, 2)];

// The fills of the edges of the clip alone, and of both.
const OF_RIGHT: [u8; 4] = [8, 4, 8, 4];

const OF_BOTH: [u8; 7] = [2, 1, 2, 9, 4, 8, 4];

// Checks what a new builder holds, and whether it keeps collinear points.
fn check_new<I: OverlayInt>(
    rt: &impl Abort,
    made: Result<Overlay<I, Global>, OverlayError>,
    keeps_points: bool,
    fills: &[u8],
) {
    let mut overlay = made.expect(rt, "a builder is made");
    check_held(rt, &mut overlay, keeps_points, fills);
}

// Checks the content of the builder, and whether it keeps collinear points.
fn check_held<I: OverlayInt>(
    rt: &impl Abort,
    overlay: &mut Overlay<I, Global>,
    keeps_points: bool,
    fills: &[u8],
) {
    assert!(rt; overlay.options.preserve_input_collinear == keeps_points);
    assert!(rt; overlay.options.preserve_output_collinear == keeps_points);
    assert!(rt; overlay.boolean_buffer.is_some());
    check_fills(rt, overlay, FillRule::NonZero, fills);
}

// Each constructor gives the edges of the subject, or of both.
fn check_constructors<I: OverlayInt>(
    rt: &impl Abort,
    alloc: Global,
    subj: PathRef<'_, I>,
    clip: PathRef<'_, I>,
) {
    check_new(rt, from_subj(rt, alloc, &subj), false, &OF_SQUARE);
    check_new(rt, from_subj_custom(rt, alloc, &subj), true, &OF_SQUARE);
    let of_both = from_subj_and_clip(rt, alloc, &subj, &clip);
    check_new(rt, of_both, false, &OF_BOTH);
    let of_both = from_subj_and_clip_custom(rt, alloc, &subj, &clip);
    check_new(rt, of_both, true, &OF_BOTH);
}

// A builder that keeps all points and has no buffer.
fn bare_builder<I: OverlayInt>(alloc: Global) -> Result<Overlay<I, Global>, OverlayError> {
    let options = IntOverlayOptions::keep_all_points();
    let mut overlay = Overlay::new_custom(alloc, 0, options, Solver::ABSOLUTE)?;
    overlay.boolean_buffer = None;
    Ok(overlay)
}

// Checks a builder that keeps all points and has no buffer.
fn check_bare<I: OverlayInt>(rt: &impl Abort, overlay: &mut Overlay<I, Global>, fills: &[u8]) {
    assert!(rt; overlay.options.preserve_input_collinear);
    assert!(rt; overlay.boolean_buffer.is_none());
    check_fills(rt, overlay, FillRule::NonZero, fills);
}

// Dropping the edges and adding a subject and a clip, and then a subject alone, keeps the rest of the
// builder.
fn check_reinits<I: OverlayInt>(
    rt: &impl Abort,
    alloc: Global,
    subj: PathRef<'_, I>,
    clip: PathRef<'_, I>,
) -> Result<(), OverlayError> {
    let mut bare = bare_builder(alloc)?;
    check_reinits_of(rt, &mut bare, subj, clip);
    Ok(())
}

// Checks that for this builder.
fn check_reinits_of<I: OverlayInt>(
    rt: &impl Abort,
    bare: &mut Overlay<I, Global>,
    subj: PathRef<'_, I>,
    clip: PathRef<'_, I>,
) {
    check_answered(rt, reinit_with_subj_and_clip(rt, bare, &subj, &clip));
    check_bare(rt, bare, &OF_BOTH);
    check_answered(rt, reinit_with_subj(rt, bare, &subj));
    check_bare(rt, bare, &OF_SQUARE);
}

// Checks an iterator and a source, added to an empty builder; at the end nothing is left of them.
fn check_adders<I: OverlayInt>(
    rt: &impl Abort,
    alloc: Global,
    subj: PathRef<'_, I>,
    clip: PathRef<'_, I>,
) -> Result<(), OverlayError> {
    let mut overlay = Overlay::new(alloc, 8)?;
    check_adders_of(rt, &mut overlay, subj, clip);
    Ok(())
}

// Checks that for this builder.
fn check_adders_of<I: OverlayInt>(
    rt: &impl Abort,
    overlay: &mut Overlay<I, Global>,
    subj: PathRef<'_, I>,
    clip: PathRef<'_, I>,
) {
    check_answered(rt, add_points(rt, overlay, clip.points, ShapeType::Clip));
    check_fills(rt, overlay, FillRule::NonZero, &OF_RIGHT);
    check_answered(rt, add_source(rt, overlay, &subj, ShapeType::Subject));
    check_fills(rt, overlay, FillRule::NonZero, &OF_BOTH);
    overlay.clear();
    check_fills(rt, overlay, FillRule::NonZero, &[]);
}

// Each constructor and each adder gives the edges of the two squares, at a coordinate type.
fn check_sources<I: OverlayInt + From<i16>>(
    rt: &impl Abort,
    alloc: Global,
) -> Result<(), OverlayError> {
    let left = contour_of::<I>(alloc, SQUARE)?;
    let right = contour_of::<I>(alloc, RIGHT)?;
    let (subj, clip) = (PathRef::new(&left), PathRef::new(&right));
    check_constructors(rt, alloc, subj, clip);
    check_reinits(rt, alloc, subj, clip)?;
    check_adders(rt, alloc, subj, clip)
}

#[test]
fn sources_at_i16(rt: HostRuntime) -> Result<(), Fail> {
    Ok(check_sources::<i16>(&rt, rt.alloc())?)
}

#[test]
fn sources_at_i32(rt: HostRuntime) -> Result<(), Fail> {
    Ok(check_sources::<i32>(&rt, rt.alloc())?)
}

#[test]
fn sources_at_i64(rt: HostRuntime) -> Result<(), Fail> {
    Ok(check_sources::<i64>(&rt, rt.alloc())?)
}

// A square with two square holes.
const FRAME: &[Points<'static>] = &[
    &[(0, 0), (10, 0), (10, 10), (0, 10)],
    &[(2, 2), (4, 2), (4, 4), (2, 4)],
    &[(6, 6), (8, 6), (8, 8), (6, 8)],
];

#[test]
fn all_paths_of_a_shape_are_added(rt: HostRuntime) -> Result<(), Fail> {
    let shape = shape_of::<i32>(rt.alloc(), FRAME)?;
    let mut overlay = from_subj(&rt, rt.alloc(), &shape)?;
    let fills = [2, 1, 2, 1, 2, 1, 2, 1, 2, 1, 2, 1];
    check_fills(&rt, &mut overlay, FillRule::EvenOdd, &fills);
    Ok(())
}
