//! Overlays as shapes of edges with their filled sides, at each coordinate type.

use crate::rows::{Row, builder_of};
use i_overlay::extract::BooleanExtractionBuffer;
use i_overlay::fill_rule::FillRule;
use i_overlay::graph::OverlayGraph;
use i_overlay::overlay::IntOverlayOptions;
use i_overlay::overlay_rule::OverlayRule;
use i_overlay::vector::edge::{DataVectorEdge, SUBJ_LEFT, ToPath, VectorShape};
use overlay_geom::error::OverlayError;
use overlay_geom::integer::OverlayInt;
use small_points::contours::{Points, contour_of};
use std::alloc::Global;
use std::process::Abort;
use std::test::Fail;

// Two squares side by side.
const SIDE_BY_SIDE: Row<'static> = Row {
    subj: &[
        &[(0, 0), (2, 0), (2, 2), (0, 2)],
        &[(2, 0), (4, 0), (4, 2), (2, 2)],
    ],
    clip: &[],
    rule: OverlayRule::Subject,
    fill: FillRule::NonZero,
    wanted: &[],
};

// The contour round both, and the same with all points on its way.
const ROUND_BOTH: Points<'static> = &[(0, 2), (0, 0), (4, 0), (4, 2)];

const ROUND_BOTH_KEPT: Points<'static> = &[(0, 2), (0, 0), (2, 0), (4, 0), (4, 2), (2, 2)];

// Returns whether the subject fills the left side alone of each edge.
fn are_filled_on_the_left<I: OverlayInt>(edges: &[DataVectorEdge<I, ()>]) -> bool {
    let mut are = true;
    for edge in edges {
        are = are && edge.fill == SUBJ_LEFT;
    }
    are
}

// Tests whether these are one shape of one contour, whose edges begin at these points and have the subject on the left.
fn are_round<I: OverlayInt + PartialEq + From<i16>>(
    alloc: Global,
    shapes: &[VectorShape<I, Global>],
    points: Points<'_>,
) -> Result<bool, OverlayError> {
    if shapes.len() != 1 || shapes[0].len() != 1 {
        return Ok(false);
    }
    let contour = &shapes[0][0];
    let begun = contour.to_path(alloc)?;
    Ok(begun == contour_of::<I>(alloc, points)? && are_filled_on_the_left(contour))
}

// Tests whether a view of the squares shows this contour, with its own store and with a given store.
fn shows<I: OverlayInt + PartialEq + From<i16>>(
    alloc: Global,
    view: &OverlayGraph<'_, I, (), Global>,
    points: Points<'_>,
) -> Result<bool, OverlayError> {
    let mut buffer = BooleanExtractionBuffer::default(alloc);
    let rule = OverlayRule::Subject;
    let shapes = view.extract_vector_shapes(rule, &mut buffer)?;
    let with_store = view.extract_vector_shapes_with_store(rule, &mut buffer, &mut ())?;
    Ok(are_round(alloc, &shapes, points)? && are_round(alloc, &with_store, points)?)
}

// Tests whether the squares are answered by this contour, and by a view too.
fn holds<I: OverlayInt + PartialEq + From<i16>>(
    rt: &impl Abort,
    alloc: Global,
    options: IntOverlayOptions<I::WideUInt>,
    points: Points<'_>,
) -> Result<bool, OverlayError> {
    let mut overlay = builder_of::<I>(rt, alloc, &SIDE_BY_SIDE, options)?;
    let shapes = overlay.build_shape_vectors(FillRule::NonZero, OverlayRule::Subject)?;
    let is_built = are_round(alloc, &shapes, points)?;
    match overlay.build_graph_view(FillRule::NonZero)? {
        Some(view) => Ok(is_built && shows(alloc, &view, points)?),
        None => Ok(false),
    }
}

// Checks the squares with collinear points dropped, and with all points.
fn check<I: OverlayInt + PartialEq + From<i16>>(
    rt: &impl Abort,
    alloc: Global,
) -> Result<(), Fail> {
    assert!(rt; holds::<I>(rt, alloc, IntOverlayOptions::default(), ROUND_BOTH)?);
    assert!(rt;
        holds::<I>(
            rt,
            alloc,
            IntOverlayOptions::keep_all_points(),
            ROUND_BOTH_KEPT
        )?
    );
    Ok(())
}

#[test]
fn edges_on_one_line_are_joined_unless_kept(rt: HostRuntime) -> Result<(), Fail> {
    check::<i16>(&rt, rt.alloc())?;
    check::<i32>(&rt, rt.alloc())?;
    check::<i64>(&rt, rt.alloc())
}

// A triangle, and a triangle inside it in the opposite direction that touches its longest side.
const TRIANGLES: Row<'static> = Row {
    subj: &[&[(-5, 0), (0, 0), (0, 5)], &[(-3, 2), (-1, 2), (-1, 1)]],
    clip: &[],
    rule: OverlayRule::Subject,
    fill: FillRule::NonZero,
    wanted: &[],
};

// Number of edges of the single contour of the triangles, where collinear points stay in the output.
fn edges_round_triangles<I: OverlayInt + PartialEq + From<i16>>(
    rt: &impl Abort,
    alloc: Global,
) -> Result<usize, OverlayError> {
    let kept = IntOverlayOptions {
        preserve_output_collinear: true,
        ..IntOverlayOptions::default()
    };
    let mut overlay = builder_of::<I>(rt, alloc, &TRIANGLES, kept)?;
    let shapes = overlay.build_shape_vectors(FillRule::NonZero, OverlayRule::Subject)?;
    if shapes.len() != 1 || shapes[0].len() != 1 {
        return Ok(0);
    }
    Ok(shapes[0][0].len())
}

#[test]
fn a_hole_that_touches_its_outline_is_a_part_of_it(rt: HostRuntime) -> Result<(), Fail> {
    assert!(&rt; edges_round_triangles::<i16>(&rt, rt.alloc())? == 7);
    assert!(&rt; edges_round_triangles::<i32>(&rt, rt.alloc())? == 7);
    assert!(&rt; edges_round_triangles::<i64>(&rt, rt.alloc())? == 7);
    Ok(())
}
