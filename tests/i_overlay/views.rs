//! Views of a builder: made once, asked again and for other rules, at each coordinate type.

use crate::builders::{add, edge_count};
use crate::rows::{Row, builder_of};
use i_overlay::extract::BooleanExtractionBuffer;
use i_overlay::fill_rule::FillRule;
use i_overlay::graph::OverlayGraph;
use i_overlay::overlay::{IntOverlayOptions, Overlay, ShapeType};
use i_overlay::overlay_rule::OverlayRule;
use overlay_geom::error::OverlayError;
use overlay_geom::flat::contours::FlatContoursBuffer;
use overlay_geom::integer::OverlayInt;
use small_points::contours::{Points, contour_of, shapes_of};
use std::alloc::Global;
use std::process::Abort;
use std::test::Fail;

// Two squares that overlap in a corner.
const SQUARES: Row<'static> = Row {
    subj: &[&[(0, 0), (4, 0), (4, 4), (0, 4)]],
    clip: &[&[(2, 2), (6, 2), (6, 6), (2, 6)]],
    rule: OverlayRule::Intersect,
    fill: FillRule::EvenOdd,
    wanted: &[],
};

const CORNER: Points<'static> = &[(2, 4), (2, 2), (4, 2), (4, 4)];

const BOTH: Points<'static> = &[
    (0, 4),
    (0, 0),
    (4, 0),
    (4, 2),
    (6, 2),
    (6, 6),
    (2, 6),
    (2, 4),
];

// Tests whether the view answers one shape of one contour with these points.
fn shows<I: OverlayInt + PartialEq + From<i16>>(
    alloc: Global,
    view: &OverlayGraph<'_, I, (), Global>,
    rule: OverlayRule,
    buffer: &mut BooleanExtractionBuffer<I, Global>,
    contour: Points<'_>,
) -> Result<bool, OverlayError> {
    let wanted = shapes_of(alloc, &[&[contour]])?;
    Ok(view.extract_shapes(rule, buffer)? == wanted)
}

// Tests whether the view writes one contour with these points over the old content of the output.
fn writes<I: OverlayInt + PartialEq + From<i16>>(
    alloc: Global,
    view: &OverlayGraph<'_, I, (), Global>,
    rule: OverlayRule,
    buffer: &mut BooleanExtractionBuffer<I, Global>,
    contour: Points<'_>,
) -> Result<bool, OverlayError> {
    let mut output: FlatContoursBuffer<I, Global> = FlatContoursBuffer::default(alloc)?;
    output.add_contour(&contour_of::<I>(alloc, &[(1, 1), (2, 2), (3, 1)])?)?;
    view.extract_contours_into(rule, buffer, &mut output)?;
    Ok(output.ranges.len() == 1 && output.points == contour_of(alloc, contour)?)
}

// Checks what the view of the squares answers: for two rules, and for the first of them again.
fn check_asked_again<I: OverlayInt + PartialEq + From<i16>>(
    rt: &impl Abort,
    alloc: Global,
    view: &OverlayGraph<'_, I, (), Global>,
) -> Result<(), OverlayError> {
    let mut buffer = BooleanExtractionBuffer::default(alloc);
    assert!(rt; shows(alloc, view, OverlayRule::Intersect, &mut buffer, CORNER)?);
    assert!(rt; shows(alloc, view, OverlayRule::Union, &mut buffer, BOTH)?);
    assert!(rt; writes(alloc, view, OverlayRule::Intersect, &mut buffer, CORNER)?);
    assert!(rt; writes(alloc, view, OverlayRule::Union, &mut buffer, BOTH)?);
    assert!(rt; shows(alloc, view, OverlayRule::Intersect, &mut buffer, CORNER)?);
    Ok(())
}

// Number of edges of the view; with the data that they carry, which is none, they are equal.
fn edges_viewed<I: OverlayInt + PartialEq>(
    rt: &impl Abort,
    view: &OverlayGraph<'_, I, (), Global>,
) -> Result<usize, OverlayError> {
    let edges = view.extract_separate_vectors()?;
    assert!(rt; view.extract_vectors()? == edges);
    assert!(rt; view.extract_vectors_with_store(&mut ())? == edges);
    Ok(edges.len())
}

// Views the builder, checks the answers of the view, and returns its number of edges.
fn check_view<I: OverlayInt + PartialEq + From<i16>>(
    rt: &impl Abort,
    alloc: Global,
    overlay: &mut Overlay<I, Global>,
) -> Result<usize, OverlayError> {
    match overlay.build_graph_view(FillRule::EvenOdd)? {
        Some(view) => {
            check_asked_again(rt, alloc, &view)?;
            edges_viewed(rt, &view)
        }
        None => Ok(0),
    }
}

// A view of the two squares, and of the builder once more after a contour was added to it.
fn check_squares<I: OverlayInt + PartialEq + From<i16>>(
    rt: &impl Abort,
    alloc: Global,
) -> Result<(), OverlayError> {
    let mut overlay = builder_of::<I>(rt, alloc, &SQUARES, IntOverlayOptions::default())?;
    assert!(rt; check_view(rt, alloc, &mut overlay)? == 12);
    let apart = contour_of::<I>(alloc, &[(8, 0), (9, 0), (9, 1)])?;
    add(rt, &mut overlay, &apart, ShapeType::Subject)?;
    assert!(rt; edge_count(&mut overlay, FillRule::EvenOdd)? == 15);
    Ok(())
}

// A builder without edges has no view, and neither has a builder whose edges cancel each other.
fn check_no_edges<I: OverlayInt + From<i16>>(
    rt: &impl Abort,
    alloc: Global,
) -> Result<(), OverlayError> {
    let mut overlay: Overlay<I, Global> = Overlay::new(alloc, 0)?;
    assert!(rt; overlay.build_graph_view(FillRule::NonZero)?.is_none());
    add(
        rt,
        &mut overlay,
        &contour_of::<I>(alloc, &[(0, 0), (2, 0), (2, 2)])?,
        ShapeType::Clip,
    )?;
    add(
        rt,
        &mut overlay,
        &contour_of::<I>(alloc, &[(0, 0), (2, 2), (2, 0)])?,
        ShapeType::Clip,
    )?;
    assert!(rt; overlay.build_graph_view(FillRule::NonZero)?.is_none());
    Ok(())
}

#[test]
fn views_at_i16(rt: HostRuntime) -> Result<(), Fail> {
    check_no_edges::<i16>(&rt, rt.alloc())?;
    Ok(check_squares::<i16>(&rt, rt.alloc())?)
}

#[test]
fn views_at_i32(rt: HostRuntime) -> Result<(), Fail> {
    check_no_edges::<i32>(&rt, rt.alloc())?;
    Ok(check_squares::<i32>(&rt, rt.alloc())?)
}

#[test]
fn views_at_i64(rt: HostRuntime) -> Result<(), Fail> {
    check_no_edges::<i64>(&rt, rt.alloc())?;
    Ok(check_squares::<i64>(&rt, rt.alloc())?)
}
