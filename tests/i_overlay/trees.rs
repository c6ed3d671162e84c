//! Extractions of a row with trees for any number of parents, and with none at first.

use crate::rows::Row;
use i_overlay::extract::BooleanExtractionBuffer;
use i_overlay::hierarchy::FlatShapeHierarchy;
use i_overlay::overlay::{IntOverlayOptions, ShapeType};
use i_overlay::overlay_rule::OverlayRule;
use overlay_arrange::content::Content;
use overlay_builder::boolean::passing;
use overlay_builder::path::{PathKind, add_path, contour_kind};
use overlay_extract::assemble::assembled;
use overlay_extract::binding::bind::bind_from;
use overlay_extract::binding::placed::PlacedContours;
use overlay_extract::binding::places::shape_places;
use overlay_extract::in_shapes::in_shapes;
use overlay_extract::links::link_from;
use overlay_geom::error::OverlayError;
use overlay_geom::flat::shapes::FlatShapesBuffer;
use overlay_geom::integer::OverlayInt;
use overlay_geom::point::{IntPoint, in_range};
use overlay_geom::solver::Solver;
use overlay_graph::balance::is_balanced;
use overlay_graph::graph::Graph;
use overlay_order::count::ShapeCountBoolean;
use overlay_walk::kept_contours::kept_contours;
use small_points::contours::{Points, contour_of, shapes_of};
use std::alloc::Global;
use std::process::Abort;

// The limits at which each binding has a tree, and at which none has.
const LIMITS: [usize; 2] = [0, usize::MAX];

type Counted<I> = Content<I, ShapeCountBoolean, Global>;

// Adds a contour that is in range.
fn add<I: OverlayInt>(
    rt: &impl Abort,
    content: &mut Counted<I>,
    contour: &[IntPoint<I>],
    kind: PathKind,
    shape_type: ShapeType,
) -> Result<(), OverlayError> {
    assert!(rt; in_range(contour));
    add_path(content, contour, kind, passing(shape_type))?;
    Ok(())
}

// Adds contours that are in range.
fn add_all<I: OverlayInt + From<i16>>(
    rt: &impl Abort,
    content: &mut Counted<I>,
    contours: &[Points<'_>],
    kind: PathKind,
    shape_type: ShapeType,
) -> Result<(), OverlayError> {
    for points in contours {
        let contour = contour_of(*content.allocator(), points)?;
        add(rt, content, &contour, kind, shape_type)?;
    }
    Ok(())
}

// The graph of the row's contours, once they are arranged.
fn graph_of<I: OverlayInt + From<i16>>(
    rt: &impl Abort,
    alloc: Global,
    row: &Row<'_>,
    kind: PathKind,
) -> Result<Graph<I, ShapeCountBoolean, Global>, OverlayError> {
    let mut content = Content::with_capacity(alloc, 0)?;
    add_all(rt, &mut content, row.subj, kind, ShapeType::Subject)?;
    add_all(rt, &mut content, row.clip, kind, ShapeType::Clip)?;
    content.arrange(Solver::ABSOLUTE, &mut ())?;
    assert!(rt; is_balanced(alloc, content.edges())?);
    Ok(content.graph(row.fill)?)
}

// The row's contours, and their places in the shapes that are found for them, with a tree from a number of shapes on.
fn placed_from<I: OverlayInt>(
    graph: &Graph<I, ShapeCountBoolean, Global>,
    rule: OverlayRule,
    options: IntOverlayOptions<I::WideUInt>,
    tree_from: usize,
) -> Result<PlacedContours<I, Global>, OverlayError> {
    let alloc = *graph.allocator();
    let mut buffer = BooleanExtractionBuffer::default(alloc);
    let contours = kept_contours(graph, rule, options, &mut buffer)?;
    let found = bind_from(alloc, &contours, options.output_direction, tree_from)?;
    let places = shape_places(alloc, &contours, &found)?;
    Ok(PlacedContours { contours, places })
}

// Tests whether the row's shapes are extracted with a tree from a number of shapes on.
fn gives_shapes_from<I: OverlayInt + PartialEq + From<i16>>(
    rt: &impl Abort,
    alloc: Global,
    row: &Row<'_>,
    options: IntOverlayOptions<I::WideUInt>,
    tree_from: usize,
) -> Result<bool, OverlayError> {
    let kind = contour_kind(options.preserve_input_collinear);
    let graph = graph_of::<I>(rt, alloc, row, kind)?;
    let placed = placed_from(&graph, row.rule, options, tree_from)?;
    let keeps_points = options.preserve_output_collinear;
    let shapes = assembled(alloc, &placed.contours, &placed.places, keeps_points)?;
    Ok(shapes == shapes_of::<I>(alloc, row.wanted)?)
}

// Tests whether the hierarchy is extracted with trees from a number of parents on.
fn gives_hierarchy_from<I: OverlayInt + PartialEq + From<i16>>(
    rt: &impl Abort,
    alloc: Global,
    row: &Row<'_>,
    options: IntOverlayOptions<I::WideUInt>,
    wanted: &FlatShapeHierarchy<I, Global>,
    tree_from: usize,
) -> Result<bool, OverlayError> {
    let kind = contour_kind(options.preserve_input_collinear);
    let graph = graph_of::<I>(rt, alloc, row, kind)?;
    let placed = placed_from(&graph, row.rule, options, tree_from)?;
    let keeps_points = options.preserve_output_collinear;
    let shapes = assembled(alloc, &placed.contours, &placed.places, keeps_points)?;
    let ordered = in_shapes(alloc, &placed.contours, &placed.places)?;
    let links = link_from(alloc, &ordered, options.output_direction, tree_from)?;
    let shapes = FlatShapesBuffer::from_shapes(alloc, &shapes)?;
    Ok(FlatShapeHierarchy { shapes, links } == *wanted)
}

/// Tests whether the row's shapes are extracted by each limit.
pub(crate) fn gives_shapes<I: OverlayInt + PartialEq + From<i16>>(
    rt: &impl Abort,
    alloc: Global,
    row: &Row<'_>,
    options: IntOverlayOptions<I::WideUInt>,
) -> Result<bool, OverlayError> {
    for tree_from in LIMITS {
        if !gives_shapes_from::<I>(rt, alloc, row, options, tree_from)? {
            return Ok(false);
        }
    }
    Ok(true)
}

/// Tests whether the hierarchy is extracted by each limit.
pub(crate) fn gives_hierarchy<I: OverlayInt + PartialEq + From<i16>>(
    rt: &impl Abort,
    alloc: Global,
    row: &Row<'_>,
    options: IntOverlayOptions<I::WideUInt>,
    wanted: &FlatShapeHierarchy<I, Global>,
) -> Result<bool, OverlayError> {
    for tree_from in LIMITS {
        if !gives_hierarchy_from(rt, alloc, row, options, wanted, tree_from)? {
            return Ok(false);
        }
    }
    Ok(true)
}
