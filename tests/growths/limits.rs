//! From which number on live edges stand in a tree at once, and where a list turns into a tree. It is told by requests
//! for memory: a list that turns makes more of them than a tree from the first edge on.

use crate::figures::{Width, point};
use crate::refusals::{Answer, Memory, Trial};
use i_overlay::extract::BooleanExtractionBuffer;
use i_overlay::fill_rule::FillRule;
use i_overlay::i_float::int::point::IntPoint;
use i_overlay::i_shape::flat::buffer::FlatShapesBuffer;
use i_overlay::i_shape::int::path::PathRef;
use i_overlay::i_shape::int::shape::IntContour;
use i_overlay::overlay::{IntOverlayOptions, ShapeType};
use i_overlay::overlay_rule::OverlayRule;
use i_overlay::point_location::IntPointContainment;
use i_overlay::segm::boolean::ShapeCountBoolean;
use i_overlay::solver::Solver;
use overlay_arrange::content::Content;
use overlay_builder::boolean::passing;
use overlay_builder::path::{PathKind, add_path};
use overlay_extract::assemble::assembled;
use overlay_extract::binding::bind::bind_from;
use overlay_extract::binding::placed::bound_places;
use overlay_extract::binding::places::shape_places;
use overlay_extract::hierarchy::extract_shape_hierarchy;
use overlay_extract::in_shapes::in_shapes;
use overlay_extract::links::link_from;
use overlay_extract::slicing::loops::filled_loops;
use overlay_extract::slicing::roles::contours_of_loops;
use overlay_extract::slicing::slices::slice_contours;
use overlay_geom::number::UIntNumber;
use overlay_graph::graph::Graph;
use overlay_relate::in_contour::locate_from;
use overlay_walk::area::large_walks;
use overlay_walk::kept_contours::kept_contours;
use std::process::Abort;
use std::test::Fail;

const SUBJECT: OverlayRule = OverlayRule::Subject;

// The limits at which there is a tree at once, and at which there is a list at first.
const TREE: usize = 0;

const LIST: usize = usize::MAX;

type Squares<'m, I> = Graph<I, ShapeCountBoolean, Memory<'m>>;

// Number of edges along the teeth of a comb over one x: each second one is filled above, so that a list would turn.
const TEETH: i16 = 4004;

// A comb with this number of edges, an even one, over each x from 0 to 10, and a back: three edges more.
fn comb<I: Width>(memory: Memory<'_>, edges: i16) -> Answer<IntContour<I, Memory<'_>>> {
    let mut contour = Vec::new(memory);
    for i in 0..edges + 1 {
        contour.push(point(10 * (i % 2), 2 * i))?;
    }
    contour.push(point(-10, 2 * edges))?;
    contour.push(point(-10, 0))?;
    Ok(contour)
}

// A square by its lower left corner and its side.
fn square_from<I: Width>(low: (i16, i16), side: i16) -> [IntPoint<I>; 4] {
    let (x, y) = low;
    [
        point(x, y),
        point(x + side, y),
        point(x + side, y + side),
        point(x, y + side),
    ]
}

// The graph of a comb and of some squares above it, over its teeth, each with a hole.
fn graph_of<I: Width>(memory: Memory<'_>, squares: i16) -> Answer<Squares<'_, I>> {
    let (kind, passed) = (PathKind::Closed, passing(ShapeType::Subject));
    let mut content = Content::with_capacity(memory, 0)?;
    add_path(&mut content, &comb(memory, TEETH)?, kind, passed)?;
    for i in 0..squares {
        let y = 2 * TEETH + 20 * i + 10;
        add_path(&mut content, &square_from((2, y), 7), kind, passed)?;
        add_path(&mut content, &square_from((4, y + 2), 2), kind, passed)?;
    }
    content.arrange(Solver::ABSOLUTE, &mut ())?;
    Ok(content.graph(FillRule::EvenOdd)?)
}

// Number of requests of the places in shapes: as `bound_places` finds them, and with trees from a number of shapes on.
fn requests_of_places<I: Width>(
    trial: &Trial<'_, impl Abort>,
    squares: i16,
) -> Result<[u64; 3], Fail> {
    let memory = trial.memory;
    let (graph, options) = (
        graph_of::<I>(memory, squares)?,
        IntOverlayOptions::default(),
    );
    let mut buffer = BooleanExtractionBuffer::default(memory);
    let contours = kept_contours(&graph, SUBJECT, options, &mut buffer)?;
    let direction = options.output_direction;
    let by_limit = |tree_from| trial.requests_of(
        (),
        &|_: &mut ()| {
            let found = bind_from(memory, &contours, direction, tree_from)?;
            shape_places(memory, &contours, &found)
        },
    );
    Ok([
        trial.requests_of((), &|_: &mut ()| bound_places(memory, &contours, direction))?,
        by_limit(TREE)?,
        by_limit(LIST)?,
    ])
}

// Those of slices, whose loops are the squares.
fn requests_of_slices<I: Width>(
    trial: &Trial<'_, impl Abort>,
    squares: i16,
) -> Result<[u64; 3], Fail> {
    let memory = trial.memory;
    let (graph, least) = (graph_of::<I>(memory, squares)?, I::WideUInt::zero());
    let direction = IntOverlayOptions::<I::WideUInt>::default().output_direction;
    let by_limit = |tree_from| trial.requests_of(
        (),
        &|_: &mut ()| {
            let loops = large_walks(memory, filled_loops(&graph)?, least)?;
            let contours = contours_of_loops(memory, loops)?;
            bind_from(memory, &contours, direction, tree_from)
        },
    );
    Ok([
        trial.requests_of((), &|_: &mut ()| slice_contours(&graph, least))?,
        by_limit(TREE)?,
        by_limit(LIST)?,
    ])
}

// Those of the hierarchy, with trees from a number of holes on; the shapes are bound as they always are.
fn requests_of_links<I: Width>(
    trial: &Trial<'_, impl Abort>,
    squares: i16,
) -> Result<[u64; 3], Fail> {
    let memory = trial.memory;
    let (graph, options) = (
        graph_of::<I>(memory, squares)?,
        IntOverlayOptions::default(),
    );
    let direction = options.output_direction;
    let new = || BooleanExtractionBuffer::default(memory);
    let by_limit = |tree_from| trial.requests_of(
        new(),
        &|it| {
            let contours = kept_contours(&graph, SUBJECT, options, it)?;
            let places = bound_places(memory, &contours, direction)?;
            let shapes = assembled(memory, &contours, &places, false)?;
            let ordered = in_shapes(memory, &contours, &places)?;
            let links = link_from(memory, &ordered, direction, tree_from)?;
            FlatShapesBuffer::from_shapes(memory, &shapes).map(|flat| (flat, links))
        },
    );
    Ok([
        trial.requests_of(
            new(),
            &|it| extract_shape_hierarchy(&graph, SUBJECT, options, it),
        )?,
        by_limit(TREE)?,
        by_limit(LIST)?,
    ])
}

fn check_parents<I: Width>(trial: &Trial<'_, impl Abort>) -> Result<(), Fail> {
    // 31 shapes, or holes, and then 32
    for requests in [
        requests_of_places::<I>(trial, 30)?,
        requests_of_slices::<I>(trial, 30)?,
        requests_of_links::<I>(trial, 31)?,
    ] {
        assert!(trial.rt; requests[0] == requests[2] && requests[1] != requests[2]);
    }
    for requests in [
        requests_of_places::<I>(trial, 31)?,
        requests_of_slices::<I>(trial, 31)?,
        requests_of_links::<I>(trial, 32)?,
    ] {
        assert!(trial.rt; requests[0] == requests[1] && requests[1] != requests[2]);
    }
    Ok(())
}

#[test]
fn a_tree_from_thirty_two_parents_on(rt: HostRuntime) -> Result<(), Fail> {
    at_a_width!(rt, check_parents)
}

// Number of requests for the location of a point: as the public call finds it, with a tree, and with a list at first.
fn requests_of_points<I: Width>(
    trial: &Trial<'_, impl Abort>,
    contour: &[IntPoint<I>],
    asked: IntPoint<I>,
) -> Result<[u64; 3], Fail> {
    let memory = trial.memory;
    let points = [asked];
    let by_limit = |tree_from| trial.requests_of(
        (),
        &|_: &mut ()| { locate_from(memory, contour, &points, tree_from) },
    );
    let path = PathRef::new(contour);
    Ok([
        trial.requests_of((), &|_: &mut ()| path.locate_points(memory, &points))?,
        by_limit(TREE)?,
        by_limit(LIST)?,
    ])
}

fn check_edges<I: Width>(trial: &Trial<'_, impl Abort>) -> Result<(), Fail> {
    let asked = point(4, 1);
    // 7,999 edges, and 8,001
    let requests = requests_of_points::<I>(trial, &comb(trial.memory, 7996)?, asked)?;
    assert!(trial.rt; requests[0] == requests[2] && requests[1] != requests[2]);
    let requests = requests_of_points::<I>(trial, &comb(trial.memory, 7998)?, asked)?;
    assert!(trial.rt; requests[0] == requests[1] && requests[1] != requests[2]);
    Ok(())
}

#[test]
fn a_tree_from_eight_thousand_edges_on(rt: HostRuntime) -> Result<(), Fail> {
    at_a_width!(rt, check_edges)
}

// Below the limit a list turns into a tree when it would hold more than 2,000 edges: then the public call makes more
// requests, as a tree does.
fn check_turn<I: Width>(trial: &Trial<'_, impl Abort>) -> Result<(), Fail> {
    let asked = point(4, 1);
    let listed = requests_of_points::<I>(trial, &comb(trial.memory, 2000)?, asked)?;
    let turned = requests_of_points::<I>(trial, &comb(trial.memory, 2002)?, asked)?;
    assert!(trial.rt; listed[0] == listed[2] && turned[0] == turned[2]);
    assert!(trial.rt; turned[0] > listed[0] + 5);
    Ok(())
}

#[test]
fn a_list_turns_below_the_limit(rt: HostRuntime) -> Result<(), Fail> {
    at_a_width!(rt, check_turn)
}
