//! The worked rows of contours again, of a graph, with trees for any number of shapes, and with none at first.

use crate::colour::{Calls, Colour};
use crate::edges::{Place, point_of};
use crate::shapes::{Row, Way, are_shapes, builder_of, options_of};
use crate::traced::{CUT_OUT, HOLES, JOINED, KEPT, ONE_COLOUR, OVERLAPPING, TOUCHING, TWO_COLOURS};
use overlay_arrange::content::Content;
use overlay_extract::binding::bind::bind_from;
use overlay_extract::binding::places::shape_places;
use overlay_geom::error::OverlayError;
use overlay_geom::integer::OverlayInt;
use overlay_geom::options::IntOverlayOptions;
use overlay_geom::solver::Solver;
use overlay_graph::balance::is_balanced;
use overlay_order::count::ShapeCountBoolean;
use overlay_order::data::CountWithData;
use overlay_order::edge::{CountedEdge, compare_points};
use overlay_vector::edge_overlay::{EdgeOverlay, ShapeType};
use overlay_vector::vector_contours::assembled;
use overlay_walk::kept_contours::kept_contours;
use std::alloc::Global;
use std::process::Abort;
use std::test::Fail;

// Edges with colours.
type Coloured<I> = Content<I, CountWithData<Colour>, Global>;

// Counts of an edge that a step of the subject or of the clip passes once, along it or back.
fn passed(shape_type: ShapeType, is_along: bool) -> ShapeCountBoolean {
    match (shape_type, is_along) {
        (ShapeType::Subject, true) => ShapeCountBoolean { subj: 1, clip: 0 },
        (ShapeType::Subject, false) => ShapeCountBoolean { subj: -1, clip: 0 },
        (ShapeType::Clip, true) => ShapeCountBoolean { subj: 0, clip: 1 },
        (ShapeType::Clip, false) => ShapeCountBoolean { subj: 0, clip: -1 },
    }
}

// Adds the step, which leads from one end to the other in the coordinate range.
fn push<I: OverlayInt + From<i16>>(
    rt: &impl Abort,
    content: &mut Coloured<I>,
    ends: (Place, Place),
    edge_data: Colour,
    shape_type: ShapeType,
) -> Result<(), OverlayError> {
    let (from, to) = (point_of::<I>(ends.0), point_of::<I>(ends.1));
    let is_along = compare_points(from, to).is_lt();
    let (a, b) = if is_along { (from, to) } else { (to, from) };
    assert!(rt; a.x.is_in_range());
    assert!(rt; a.y.is_in_range());
    assert!(rt; b.x.is_in_range());
    assert!(rt; b.y.is_in_range());
    assert!(rt; compare_points(a, b).is_lt());
    let count = CountWithData {
        count: passed(shape_type, is_along),
        edge_data,
    };
    content.push(CountedEdge { a, b, count })
}

// Adds the steps of a way.
fn push_way<I: OverlayInt + From<i16>>(
    rt: &impl Abort,
    content: &mut Coloured<I>,
    way: Way<'_>,
    shape_type: ShapeType,
) -> Result<(), OverlayError> {
    let (colour, places) = way;
    for i in 1..places.len() {
        push(rt, content, (places[i - 1], places[i]), colour, shape_type)?;
    }
    Ok(())
}

// Adds the steps of the ways.
fn push_ways<I: OverlayInt + From<i16>>(
    rt: &impl Abort,
    content: &mut Coloured<I>,
    ways: &[Way<'_>],
    shape_type: ShapeType,
) -> Result<(), OverlayError> {
    for way in ways {
        push_way(rt, content, *way, shape_type)?;
    }
    Ok(())
}

// The row's edges.
fn content_of<I: OverlayInt + From<i16>>(
    rt: &impl Abort,
    alloc: Global,
    row: &Row<'_>,
) -> Result<Coloured<I>, OverlayError> {
    let mut content = Content::with_capacity(alloc, 0)?;
    push_ways(rt, &mut content, row.subj, ShapeType::Subject)?;
    push_ways(rt, &mut content, row.clip, ShapeType::Clip)?;
    Ok(content)
}

// A builder that has answered, so that it has a buffer.
fn answered<I: OverlayInt + From<i16>>(
    rt: &impl Abort,
    alloc: Global,
) -> Result<EdgeOverlay<I, Colour, Global>, OverlayError> {
    let mut overlay = builder_of::<I>(rt, alloc, &OVERLAPPING)?;
    assert!(rt; overlay.is_balanced());
    overlay.build_vector_shapes(OVERLAPPING.rule, OVERLAPPING.fill)?;
    Ok(overlay)
}

// Tests whether the graph of the row's edges, with the buffer of another builder, gives the row's shapes, with a tree
// from a number of shapes on. The contours are cut without groups.
fn gives<I: OverlayInt + PartialEq + From<i16>>(
    rt: &impl Abort,
    alloc: Global,
    row: &Row<'_>,
    tree_from: usize,
) -> Result<bool, Fail> {
    let mut overlay = answered::<I>(rt, alloc)?;
    let Some(mut buffer) = overlay.boolean_buffer.take() else {
        return Ok(false);
    };
    let mut content = content_of::<I>(rt, alloc, row)?;
    let mut store = Calls::default();
    content.arrange(Solver::ABSOLUTE, &mut store)?;
    assert!(rt; is_balanced(alloc, content.edges())?);
    let graph = content.graph(row.fill)?;
    let options = IntOverlayOptions {
        ogc: false,
        ..options_of::<I>(row)
    };
    let contours = kept_contours(&graph, row.rule, options, &mut buffer)?;
    let found = bind_from(alloc, &contours, options.output_direction, tree_from)?;
    let places = shape_places(alloc, &contours, &found)?;
    let keeps_edges = options.preserve_output_collinear;
    let shapes = assembled(&graph, &contours, &places, keeps_edges, &mut store)?;
    Ok(are_shapes::<I>(alloc, &shapes, row.wanted)?)
}

// All rows at a coordinate type.
fn rows<I: OverlayInt + PartialEq + From<i16>>(
    rt: &impl Abort,
    alloc: Global,
    tree_from: usize,
) -> Result<(), Fail> {
    assert!(rt; gives::<I>(rt, alloc, &OVERLAPPING, tree_from)?);
    assert!(rt; gives::<I>(rt, alloc, &TWO_COLOURS, tree_from)?);
    assert!(rt; gives::<I>(rt, alloc, &ONE_COLOUR, tree_from)?);
    assert!(rt; gives::<I>(rt, alloc, &TOUCHING, tree_from)?);
    assert!(rt; gives::<I>(rt, alloc, &JOINED, tree_from)?);
    assert!(rt; gives::<I>(rt, alloc, &KEPT, tree_from)?);
    assert!(rt; gives::<I>(rt, alloc, &CUT_OUT, tree_from)?);
    assert!(rt; gives::<I>(rt, alloc, &HOLES, tree_from)?);
    Ok(())
}

#[test]
fn contours_traced_with_a_limit_of_zero(rt: HostRuntime) -> Result<(), Fail> {
    rows::<i16>(&rt, rt.alloc(), 0)?;
    rows::<i32>(&rt, rt.alloc(), 0)?;
    rows::<i64>(&rt, rt.alloc(), 0)
}

#[test]
fn contours_traced_with_lists_at_first(rt: HostRuntime) -> Result<(), Fail> {
    rows::<i16>(&rt, rt.alloc(), usize::MAX)?;
    rows::<i32>(&rt, rt.alloc(), usize::MAX)?;
    rows::<i64>(&rt, rt.alloc(), usize::MAX)
}
