//! Calls on data counted in the caller's store, by calls that take one: a content that is snapped, and its graph.

use crate::colour::{Calls, Colour};
use crate::counted::calls;
use crate::edges::{Place, point_of};
use crate::solvers::{FIRST, SECOND};
use overlay_arrange::content::Content;
use overlay_extract::binding::placed::bound_places;
use overlay_geom::error::OverlayError;
use overlay_geom::fill_rule::FillRule;
use overlay_geom::integer::OverlayInt;
use overlay_geom::options::IntOverlayOptions;
use overlay_geom::overlay_rule::OverlayRule;
use overlay_geom::solver::Solver;
use overlay_graph::balance::is_balanced;
use overlay_graph::graph::Graph;
use overlay_order::count::ShapeCountBoolean;
use overlay_order::data::CountWithData;
use overlay_order::edge::{CountedEdge, compare_points};
use overlay_vector::vector_contours::assembled;
use overlay_vector::vector_shapes::vector_shapes;
use overlay_walk::buffer::BooleanExtractionBuffer;
use overlay_walk::kept_contours::kept_contours;
use std::alloc::Global;
use std::process::Abort;
use std::test::Fail;

// Edges with colours.
type Coloured<I> = Content<I, CountWithData<Colour>, Global>;

// The values of an edge that one of the needles passes once.
const RED: CountWithData<Colour> = CountWithData {
    count: ShapeCountBoolean { subj: 1, clip: 0 },
    edge_data: Colour::Red,
};

const GREEN: CountWithData<Colour> = CountWithData {
    count: ShapeCountBoolean { subj: 0, clip: 1 },
    edge_data: Colour::Green,
};

// Adds a step in the coordinate range; one that leads to its smaller end is held reversed.
fn push<I: OverlayInt + From<i16>>(
    rt: &impl Abort,
    content: &mut Coloured<I>,
    ends: (Place, Place),
    count: CountWithData<Colour>,
    store: &mut Calls,
) -> Result<(), OverlayError> {
    let (from, to) = (point_of::<I>(ends.0), point_of::<I>(ends.1));
    let is_along = compare_points(from, to).is_lt();
    let (a, b) = if is_along { (from, to) } else { (to, from) };
    assert!(rt; a.x.is_in_range());
    assert!(rt; a.y.is_in_range());
    assert!(rt; b.x.is_in_range());
    assert!(rt; b.y.is_in_range());
    assert!(rt; compare_points(a, b).is_lt());
    let edge = CountedEdge { a, b, count };
    if is_along {
        content.push(edge)
    } else {
        content.push_reversed(edge, store)
    }
}

// The needles, of which three edges are held reversed.
fn needles<I: OverlayInt + From<i16>>(
    rt: &impl Abort,
    alloc: Global,
    store: &mut Calls,
) -> Result<Coloured<I>, OverlayError> {
    let mut content = Content::with_capacity(alloc, 0)?;
    for (places, count) in [(FIRST, RED), (SECOND, GREEN)] {
        for i in 0..places.len() {
            let next = if i + 1 < places.len() { i + 1 } else { 0 };
            push(rt, &mut content, (places[i], places[next]), count, store)?;
        }
    }
    Ok(content)
}

// Binds the contours round the union, and puts them together.
fn assemble<I: OverlayInt>(
    graph: &Graph<I, CountWithData<Colour>, Global>,
    buffer: &mut BooleanExtractionBuffer<I, Global>,
    store: &mut Calls,
) -> Result<usize, OverlayError> {
    let options = IntOverlayOptions::keep_output_points();
    let contours = kept_contours(graph, OverlayRule::Union, options, buffer)?;
    let places = bound_places(*graph.allocator(), &contours, options.output_direction)?;
    Ok(assembled(graph, &contours, &places, true, store)?.len())
}

// The numbers of calls are those of a builder: 11 pieces, four of them against their edges, and five merges; then two
// edges for each walk round the union.
fn check<I: OverlayInt + From<i16>>(rt: &impl Abort, alloc: Global) -> Result<(), Fail> {
    let mut store = calls(10, 20, 30);
    let mut content = needles::<I>(rt, alloc, &mut store)?;
    assert!(rt; store == calls(10, 20, 33));
    assert!(rt; content.arrange(Solver::SNAPPED, &mut store)?);
    assert!(rt; store == calls(15, 31, 37));
    assert!(rt; is_balanced(alloc, content.edges())?);
    let graph = content.graph(FillRule::NonZero)?;
    let mut buffer = BooleanExtractionBuffer::default(alloc);
    let options = IntOverlayOptions::keep_output_points();
    let rule = OverlayRule::Union;
    let shapes = vector_shapes(&graph, rule, options, &mut buffer, &mut store)?;
    assert!(rt; shapes.len() == 1);
    assert!(rt; store == calls(15, 31, 39));
    assert!(rt; assemble(&graph, &mut buffer, &mut store)? == 1);
    assert!(rt; store == calls(15, 31, 41));
    Ok(())
}

#[test]
fn the_store_of_a_snapped_content(rt: HostRuntime) -> Result<(), Fail> {
    check::<i16>(&rt, rt.alloc())?;
    check::<i32>(&rt, rt.alloc())?;
    check::<i64>(&rt, rt.alloc())
}
