//! Two needles whose edges carry colours, which rounds do not settle, and snap rounding does, at each coordinate type.

use crate::colour::Colour;
use crate::edges::{Place, add_contour, vector_of};
use overlay_geom::error::OverlayError;
use overlay_geom::fill_rule::FillRule;
use overlay_geom::integer::OverlayInt;
use overlay_geom::overlay_rule::OverlayRule;
use overlay_geom::solver::Solver;
use overlay_order::vector::DataVectorEdge;
use overlay_vector::edge_overlay::{EdgeOverlay, ShapeType};
use std::alloc::Global;
use std::process::Abort;
use std::test::Fail;

/// Two needles, whose long sides cross so flatly that each round moves their crossing on by one unit.
pub(crate) const FIRST: [Place; 3] = [(2, 0), (0, 66), (2, -66)];

/// The second of them.
pub(crate) const SECOND: [Place; 3] = [(1, 0), (0, 67), (-1, 0)];

// A red and a green needle.
fn needles<I: OverlayInt + From<i16>>(
    rt: &impl Abort,
    alloc: Global,
) -> Result<EdgeOverlay<I, Colour, Global>, OverlayError> {
    let mut overlay = EdgeOverlay::new(alloc, 8)?;
    add_contour(rt, &mut overlay, &FIRST, Colour::Red, ShapeType::Subject)?;
    add_contour(rt, &mut overlay, &SECOND, Colour::Green, ShapeType::Clip)?;
    assert!(rt; overlay.is_balanced());
    Ok(overlay)
}

// The union of the needles. Their crossings round to (0, 65), by hand, and their common part from there to (1, 0) lies
// inside. Each edge that is left belongs to one needle.
fn union<I: OverlayInt + PartialEq + From<i16>>(
    rt: &impl Abort,
    alloc: Global,
) -> Result<(), Fail> {
    let mut by_rounds = needles::<I>(rt, alloc)?;
    let refused = by_rounds.build_vectors(OverlayRule::Union, FillRule::NonZero);
    assert!(rt; matches!(refused, Err(OverlayError::NotSettled)));
    let mut snapped = needles::<I>(rt, alloc)?;
    snapped.solver = Solver::SNAPPED;
    let vectors = snapped.build_vectors(OverlayRule::Union, FillRule::NonZero)?;
    let wanted: [DataVectorEdge<I, Colour>; 5] = [
        vector_of((-1, 0), (0, 65), 8, Colour::Green),
        vector_of((-1, 0), (1, 0), 4, Colour::Green),
        vector_of((0, 65), (2, 0), 2, Colour::Red),
        vector_of((1, 0), (2, -66), 1, Colour::Red),
        vector_of((2, -66), (2, 0), 1, Colour::Red),
    ];
    assert!(rt; vectors[..] == wanted[..]);
    Ok(())
}

// The shapes of the union.
fn shapes<I: OverlayInt + PartialEq + From<i16>>(
    rt: &impl Abort,
    alloc: Global,
) -> Result<(), Fail> {
    let mut by_rounds = needles::<I>(rt, alloc)?;
    let refused = by_rounds.build_vector_shapes(OverlayRule::Union, FillRule::NonZero);
    assert!(rt; matches!(refused, Err(OverlayError::NotSettled)));
    let mut snapped = needles::<I>(rt, alloc)?;
    snapped.solver = Solver::SNAPPED;
    let shapes = snapped.build_vector_shapes(OverlayRule::Union, FillRule::NonZero)?;
    assert!(rt; shapes.len() == 1 && shapes[0].len() == 1 && shapes[0][0].len() == 5);
    Ok(())
}

#[test]
fn snapped_edges_keep_their_colours(rt: HostRuntime) -> Result<(), Fail> {
    union::<i16>(&rt, rt.alloc())?;
    union::<i32>(&rt, rt.alloc())?;
    union::<i64>(&rt, rt.alloc())
}

#[test]
fn snapped_edges_bound_shapes(rt: HostRuntime) -> Result<(), Fail> {
    shapes::<i16>(&rt, rt.alloc())?;
    shapes::<i32>(&rt, rt.alloc())?;
    shapes::<i64>(&rt, rt.alloc())
}
