//! The shapes of contours that are simplified, extracted also with trees alone and with lists alone, at each
//! coordinate type.

use crate::by_scan::shapes_by;
use overlay_arrange::content::Content;
use overlay_builder::boolean::passing;
use overlay_builder::path::{PathKind, add_path};
use overlay_extract::extract::extract_shapes;
use overlay_geom::error::OverlayError;
use overlay_geom::fill_rule::FillRule;
use overlay_geom::integer::OverlayInt;
use overlay_geom::options::{IntOverlayOptions, ShapeType};
use overlay_geom::overlay_rule::OverlayRule;
use overlay_geom::solver::Solver;
use overlay_graph::balance::is_balanced;
use overlay_graph::graph::Graph;
use overlay_order::count::ShapeCountBoolean;
use overlay_scan::list::ScanList;
use overlay_scan::tree::ScanTree;
use overlay_walk::buffer::BooleanExtractionBuffer;
use small_points::contours::{Points, assert_in_range, contour_of, shapes_of};
use std::alloc::Global;
use std::process::Abort;
use std::test::Fail;

// A square that runs clockwise, and as it is walked.
const CLOCKWISE: Points<'static> = &[(0, 0), (0, 10), (10, 10), (10, 0)];

const CLOCKWISE_WALKED: Points<'static> = &[(0, 10), (0, 0), (10, 0), (10, 10)];

// A contour with an area of 50 that runs clockwise, and as it is walked.
const SLIVER: Points<'static> = &[(-100, -100), (0, 0), (101, 100)];

const SLIVER_WALKED: Points<'static> = &[(0, 0), (-100, -100), (101, 100)];

// A contour that visits a point twice, and what is left of it.
const VISITED_TWICE: Points<'static> = &[(0, 0), (-3, 2), (-3, -2), (0, 0), (-2, 1), (-2, -1)];

const VISITED_ONCE: Points<'static> = &[(-3, 2), (-3, -2), (0, 0)];

// A square with an area of 4, and as it is walked.
const SMALL: Points<'static> = &[(0, 0), (2, 0), (2, 2), (0, 2)];

const SMALL_WALKED: Points<'static> = &[(0, 2), (0, 0), (2, 0), (2, 2)];

// The graph of the contour as the subject, without collinear points, once it is arranged.
fn graph_of<I: OverlayInt + From<i16>>(
    rt: &impl Abort,
    alloc: Global,
    points: Points<'_>,
    fill_rule: FillRule,
) -> Result<Graph<I, ShapeCountBoolean, Global>, OverlayError> {
    let contour = contour_of(alloc, points)?;
    assert_in_range(rt, &contour);
    let mut content = Content::with_capacity(alloc, 0)?;
    add_path(
        &mut content,
        &contour,
        PathKind::Thinned,
        passing(ShapeType::Subject),
    )?;
    content.arrange(Solver::ABSOLUTE, &mut ())?;
    assert!(rt; is_balanced(alloc, content.edges())?);
    Ok(content.graph(fill_rule)?)
}

// Checks the contour's shape, if it has one, also with trees alone and with lists alone.
fn check<I: OverlayInt + PartialEq + From<i16>>(
    rt: &impl Abort,
    alloc: Global,
    points: Points<'_>,
    fill_rule: FillRule,
    options: IntOverlayOptions<I::WideUInt>,
    wanted: Points<'_>,
) -> Result<(), OverlayError> {
    let contour = [wanted];
    let shape: &[Points<'_>] = &contour;
    let wanted = if wanted.is_empty() {
        Vec::new(alloc)
    } else {
        shapes_of::<I>(alloc, &[shape])?
    };
    let graph = graph_of::<I>(rt, alloc, points, fill_rule)?;
    let mut buffer = BooleanExtractionBuffer::default(alloc);
    let rule = OverlayRule::Subject;
    let (mut tree, mut list) = (ScanTree::default(alloc), ScanList::default(alloc));
    let found = [
        extract_shapes(&graph, rule, options, &mut buffer)?,
        shapes_by(&graph, rule, options, &mut buffer, &mut tree)?,
        shapes_by(&graph, rule, options, &mut buffer, &mut list)?,
    ];
    for shapes in &found {
        assert!(rt; *shapes == wanted);
    }
    Ok(())
}

// The rows with the default options.
fn check_defaults<I: OverlayInt + PartialEq + From<i16>>(
    rt: &impl Abort,
    alloc: Global,
) -> Result<(), OverlayError> {
    let options = IntOverlayOptions::default();
    let rule = FillRule::NonZero;
    check::<I>(rt, alloc, CLOCKWISE, FillRule::Positive, options, &[])?;
    let negative = FillRule::Negative;
    check::<I>(rt, alloc, CLOCKWISE, negative, options, CLOCKWISE_WALKED)?;
    check::<I>(rt, alloc, &[(0, 0), (1, 1)], rule, options, &[])?;
    check::<I>(rt, alloc, SLIVER, rule, options, SLIVER_WALKED)?;
    check::<I>(rt, alloc, VISITED_TWICE, rule, options, VISITED_ONCE)?;
    check::<I>(rt, alloc, SMALL, rule, options, SMALL_WALKED)
}

// A square below the minimum area.
fn check_minimum<I: OverlayInt + PartialEq + From<i16>>(
    rt: &impl Abort,
    alloc: Global,
    min_output_area: I::WideUInt,
) -> Result<(), OverlayError> {
    let options = IntOverlayOptions {
        min_output_area,
        ..IntOverlayOptions::default()
    };
    check::<I>(rt, alloc, SMALL, FillRule::NonZero, options, &[])
}

#[test]
fn simplified_at_i16(rt: HostRuntime) -> Result<(), Fail> {
    check_defaults::<i16>(&rt, rt.alloc())?;
    Ok(check_minimum::<i16>(&rt, rt.alloc(), 5)?)
}

#[test]
fn simplified_at_i32(rt: HostRuntime) -> Result<(), Fail> {
    check_defaults::<i32>(&rt, rt.alloc())?;
    Ok(check_minimum::<i32>(&rt, rt.alloc(), 5)?)
}

#[test]
fn simplified_at_i64(rt: HostRuntime) -> Result<(), Fail> {
    check_defaults::<i64>(&rt, rt.alloc())?;
    Ok(check_minimum::<i64>(&rt, rt.alloc(), 5)?)
}
