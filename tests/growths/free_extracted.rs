//! Free functions of crates below `i_overlay` that walk over a graph, or over what was walked.

use crate::figures::{Width, square};
use crate::one_call::count_of;
use crate::refusals::{Answer, Memory, Trial};
use i_overlay::extract::BooleanExtractionBuffer;
use i_overlay::fill_rule::FillRule;
use i_overlay::i_shape::flat::buffer::FlatContoursBuffer;
use i_overlay::overlay::{ContourDirection, IntOverlayOptions, ShapeType};
use i_overlay::overlay_rule::OverlayRule;
use i_overlay::segm::boolean::ShapeCountBoolean;
use i_overlay::solver::Solver;
use overlay_arrange::content::Content;
use overlay_builder::boolean::{passing, passing_without_data};
use overlay_builder::path::{PathKind, StepCounts, add_path};
use overlay_extract::assemble::{assembled, contour};
use overlay_extract::binding::anchor::hole_anchors;
use overlay_extract::binding::bind::{bind_contours, bind_from};
use overlay_extract::binding::islands::{hole_places, holes_round};
use overlay_extract::binding::placed::{bound_places, placed_contours};
use overlay_extract::binding::places::shape_places;
use overlay_extract::extract::{extract_contours, extract_flat_shapes, extract_shapes};
use overlay_extract::flat_shapes::flat_assembled;
use overlay_extract::hierarchy::extract_shape_hierarchy;
use overlay_extract::in_shapes::in_shapes;
use overlay_extract::links::{link_from, links};
use overlay_extract::slicing::cutter::cut_loops;
use overlay_extract::slicing::loops::filled_loops;
use overlay_extract::slicing::orbits::side_orbits;
use overlay_extract::slicing::roles::contours_of_loops;
use overlay_extract::slicing::sliced_shapes::sliced_shapes;
use overlay_extract::slicing::slices::slice_contours;
use overlay_extract::slicing::tours::tours;
use overlay_geom::error::OverlayError;
use overlay_geom::number::UIntNumber;
use overlay_graph::graph::Graph;
use overlay_order::count::EdgeCount;
use overlay_order::data::CountWithData;
use overlay_scan::list::ScanList;
use overlay_scan::scan::Scan;
use overlay_scan::tree::ScanTree;
use overlay_vector::graph_vectors::graph_vectors;
use overlay_vector::selected_vectors::selected_vectors;
use overlay_vector::vector_contours;
use overlay_vector::vector_shapes::vector_shapes;
use overlay_walk::area::large_walks;
use overlay_walk::contour::{Contour, Role};
use overlay_walk::contour_cut::cut_into_contours;
use overlay_walk::groups::cut_in_groups;
use overlay_walk::hand::HandRule;
use overlay_walk::kept_contours::kept_contours;
use overlay_walk::open_steps::{OpenSteps, sort_steps};
use overlay_walk::points_once::has_each_point_once;
use overlay_walk::selected_steps::push_selected;
use overlay_walk::selected_walks::{selected_contours, selected_walks};
use overlay_walk::step::Step;
use std::alloc::AllocError;
use std::process::Abort;
use std::test::Fail;

const SUBJECT: OverlayRule = OverlayRule::Subject;

const DIRECTION: ContourDirection = ContourDirection::CounterClockwise;

// A square with a hole and an island in it, and a small square: three shapes of four contours.
const SQUARES: [(i16, i16); 4] = [(0, 20), (2, 18), (4, 16), (30, 34)];

type Contours<'m, I> = Vec<Contour<I, Memory<'m>>, Memory<'m>>;

type Buffer<'m, I> = BooleanExtractionBuffer<I, Memory<'m>>;

type Plain<'m, I> = Graph<I, ShapeCountBoolean, Memory<'m>>;

// The graph of the squares.
fn graph_of<'m, I: Width, C: EdgeCount>(
    memory: Memory<'m>,
    passing: StepCounts<C>,
    store: &mut C::Store,
) -> Answer<Graph<I, C, Memory<'m>>> {
    let mut content = Content::with_capacity(memory, 0)?;
    for (low, high) in SQUARES {
        add_path(&mut content, &square(low, high), PathKind::Closed, passing)?;
    }
    content.arrange(Solver::ABSOLUTE, store)?;
    Ok(content.graph(FillRule::EvenOdd)?)
}

fn plain_graph<I: Width>(memory: Memory<'_>) -> Answer<Plain<'_, I>> {
    graph_of(memory, passing(ShapeType::Subject), &mut ())
}

// Refuses the growths of a function that is lent room, and gives its answer.
fn lends<
    'm,
    I: Width,
    T: Drop,
    E: Into<OverlayError> + Drop,
    C: Fn(&mut Buffer<'m, I>) -> Result<T, E> + Drop,
>(trial: &Trial<'m, impl Abort>, name: &str, call: C) -> Result<T, Fail> {
    let memory = trial.memory;
    let new = || Ok(BooleanExtractionBuffer::default(memory));
    trial.refuse_each(name, new, &call, |it| Ok(call(it).is_ok()))
}

// Refuses the growths of a function that is given a graph and lent room, and gives its answer.
fn gives<
    'm,
    I: Width,
    T: Drop,
    G: Fn() -> Answer<Plain<'m, I>> + Drop,
    C: Fn(Plain<'m, I>, &mut Buffer<'m, I>) -> Result<T, AllocError> + Drop,
>(trial: &Trial<'m, impl Abort>, name: &str, graph: G, call: C) -> Result<T, Fail> {
    let memory = trial.memory;
    let new = || { Ok((Some(graph()?), BooleanExtractionBuffer::default(memory))) };
    trial.refuse_each(
        name,
        new,
        |it| call(it.0.take().ok_or(AllocError)?, &mut it.1),
        |_| Ok(true),
    )
}

// All selected steps.
fn steps<'m, I: Width>(graph: &Plain<'m, I>) -> Answer<Vec<Step<I>, Memory<'m>>> {
    let mut steps = Vec::new(*graph.allocator());
    push_selected(&mut steps, graph.edges(), SUBJECT, DIRECTION)?;
    Ok(steps)
}

// All selected steps, 40 times one behind the other.
fn many_steps<'m, I: Width>(graph: &Plain<'m, I>) -> Answer<Vec<Step<I>, Memory<'m>>> {
    let all = steps(graph)?;
    let mut many = Vec::new(*graph.allocator());
    for _ in 0..40 {
        for step in &all {
            many.push(*step)?;
        }
    }
    Ok(many)
}

// How many walks, or contours, of all selected steps a function gives.
fn cuts<
    'm,
    I: Width,
    T: Drop,
    E: Into<OverlayError> + Drop,
    C: Fn(&mut OpenSteps<I, Memory<'m>>) -> Result<T, E> + Drop,
>(trial: &Trial<'m, impl Abort>, graph: &Plain<'m, I>, name: &str, call: C) -> Result<T, Fail> {
    let new = || Ok(OpenSteps::new(steps(graph)?)?);
    trial.refuse_each(name, new, call, |_| Ok(true))
}

// The cut with groups, of steps that it is given, and the test of points with which it begins.
fn check_groups<I: Width>(trial: &Trial<'_, impl Abort>, graph: &Plain<'_, I>) -> Result<(), Fail> {
    let (memory, least) = (trial.memory, I::WideUInt::zero());
    let new = || Ok(Some(OpenSteps::new(steps(graph)?)?));
    let (contours, _) = trial.refuse_each(
        "overlay_walk::cut_in_groups",
        new,
        |it| cut_in_groups(memory, it.take().ok_or(AllocError)?, DIRECTION, least),
        |_| Ok(true),
    )?;
    assert!(trial.rt; contours.len() == 4);
    let points = square::<I>(0, 20);
    let is_once = trial.refuse_call("overlay_walk::has_each_point_once", || {
        has_each_point_once(memory, &points)
    })?;
    assert!(trial.rt; is_once);
    Ok(())
}

fn check_walks<I: Width>(trial: &Trial<'_, impl Abort>) -> Result<(), Fail> {
    let memory = trial.memory;
    let (graph, options) = (plain_graph::<I>(memory)?, IntOverlayOptions::default());
    let new_graph = || plain_graph::<I>(memory);
    let found = trial.refuse_call("overlay_walk::push_selected", || {
        let mut steps = Vec::new(memory);
        push_selected(&mut steps, graph.edges(), SUBJECT, DIRECTION).map(|_| steps)
    })?;
    assert!(trial.rt; found.len() == 16);
    for ogc in [false, true] {
        let options = IntOverlayOptions { ogc, ..options };
        let kept = lends(trial, "overlay_walk::kept_contours", |it| {
            kept_contours(&graph, SUBJECT, options, it)
        })?;
        let alike = gives(
            trial,
            "overlay_walk::kept_contours",
            &new_graph,
            |graph, it| kept_contours(graph, SUBJECT, options, it),
        )?;
        assert!(trial.rt; kept.len() == 4 && alike.len() == 4);
    }
    let alike = gives(
        trial,
        "overlay_walk::selected_walks",
        &new_graph,
        |graph, it| selected_walks(graph, SUBJECT, DIRECTION, it),
    )?;
    let others = gives(
        trial,
        "overlay_walk::selected_contours",
        &new_graph,
        |graph, it| selected_contours(graph, SUBJECT, DIRECTION, options.min_output_area, it),
    )?;
    assert!(trial.rt; alike.len() == 4 && others.len() == 4);
    let walks = lends(trial, "overlay_walk::selected_walks", |it| {
        selected_walks(&graph, SUBJECT, DIRECTION, it)
    })?;
    let contours = lends(trial, "overlay_walk::selected_contours", |it| {
        selected_contours(&graph, SUBJECT, DIRECTION, options.min_output_area, it)
    })?;
    assert!(trial.rt; walks.len() == 4 && contours.len() == 4);
    let walks = cuts(trial, &graph, "overlay_walk::cut_into_contours", |it| {
        cut_into_contours(memory, it, HandRule::OutlineOrHole(DIRECTION))
    })?;
    assert!(trial.rt; walks.len() == 4);
    check_groups::<I>(trial, &graph)?;
    trial.refuse_each(
        "overlay_walk::sort_steps",
        || many_steps(&graph),
        |it| sort_steps(it),
        |it| Ok(it.len() == 640),
    )?;
    let new = || {
        let mut buffer = BooleanExtractionBuffer::default(memory);
        Ok(Some(selected_walks(&graph, SUBJECT, DIRECTION, &mut buffer)?))
    };
    let large = trial.refuse_each(
        "overlay_walk::large_walks",
        new,
        |it| large_walks(
            memory,
            it.take().ok_or(AllocError)?,
            options.min_output_area,
        ),
        |_| Ok(true),
    )?;
    assert!(trial.rt; large.len() == 4);
    Ok(())
}

#[test]
fn functions_of_walks(rt: HostRuntime) -> Result<(), Fail> {
    at_a_width!(rt, check_walks)
}

// The contours that are kept of the squares.
fn kept<'m, I: Width>(graph: &Plain<'m, I>) -> Answer<Contours<'m, I>> {
    let mut buffer = BooleanExtractionBuffer::default(*graph.allocator());
    Ok(kept_contours(graph, SUBJECT, IntOverlayOptions::default(), &mut buffer)?)
}

// The shapes in which contours stand from the start.
fn known<'m, I: Width>(
    memory: Memory<'m>,
    contours: &[Contour<I, Memory<'m>>],
) -> Answer<Vec<Option<usize>, Memory<'m>>> {
    let mut known = Vec::new(memory);
    for contour in contours {
        known.push(contour.role.shape())?;
    }
    Ok(known)
}

// The shapes found for contours, by scans of a kind.
fn binds<'m, I: Width, S: Scan<I, usize> + Drop, N: Fn() -> S + Drop>(
    trial: &Trial<'m, impl Abort>,
    contours: &[Contour<I, Memory<'m>>],
    new: N,
) -> Result<Vec<Option<usize>, Memory<'m>>, Fail> {
    let memory = trial.memory;
    trial.refuse_each(
        "overlay_extract::bind_contours",
        || Ok(new()),
        |it| bind_contours(memory, it, contours, DIRECTION),
        |_| Ok(true),
    )
}

// The hole finds its shape, and the island the hole, by scans of a kind.
fn check_scans<'m, I: Width, S: Scan<I, usize> + Drop, N: Fn() -> S + Drop>(
    trial: &Trial<'m, impl Abort>,
    contours: &[Contour<I, Memory<'m>>],
    new: N,
) -> Result<(), Fail> {
    let memory = trial.memory;
    let found = binds(trial, contours, &new)?;
    assert!(trial.rt; found.len() == 4);
    for (at, contour) in contours.iter().enumerate() {
        let is_hole = contour.role == Role::FreeHole;
        assert!(trial.rt; !is_hole || found[at] == Some(0));
    }
    let round = trial.refuse_each(
        "overlay_extract::holes_round",
        || Ok(new()),
        |it| holes_round(memory, it, contours, DIRECTION),
        |_| Ok(true),
    )?;
    assert!(trial.rt; round.len() == 3);
    let places = trial.refuse_call("overlay_extract::shape_places", || {
        shape_places(memory, contours, &found)
    })?;
    assert!(trial.rt; places.len() == 3 && places[0].count() == 2);
    let ordered = trial.refuse_call("overlay_extract::in_shapes", || {
        in_shapes(memory, contours, &places)
    })?;
    let links = trial.refuse_each(
        "overlay_extract::links",
        || Ok(new()),
        |it| links(memory, it, &ordered, DIRECTION),
        |_| Ok(true),
    )?;
    assert!(trial.rt; ordered.len() == 4 && links.len() == 1);
    for tree_from in [0, usize::MAX] {
        let again = trial.refuse_call("overlay_extract::bind_from", || {
            bind_from(memory, contours, DIRECTION, tree_from)
        })?;
        let linked = trial.refuse_call("overlay_extract::link_from", || {
            link_from(memory, &ordered, DIRECTION, tree_from)
        })?;
        assert!(trial.rt; again == found && linked == links);
    }
    Ok(())
}

fn check_binding<I: Width>(trial: &Trial<'_, impl Abort>) -> Result<(), Fail> {
    let memory = trial.memory;
    let graph = plain_graph::<I>(memory)?;
    let contours = kept(&graph)?;
    let known = known(memory, &contours)?;
    let anchors = trial.refuse_call("overlay_extract::hole_anchors", || {
        hole_anchors(memory, &contours, &known)
    })?;
    let places = trial.refuse_call("overlay_extract::hole_places", || {
        hole_places(memory, &contours)
    })?;
    assert!(trial.rt; anchors.len() == 1 && places.len() == 4);
    check_scans(trial, &contours, || ScanTree::default(memory))?;
    check_scans(trial, &contours, || ScanList::default(memory))
}

#[test]
fn functions_of_binding(rt: HostRuntime) -> Result<(), Fail> {
    at_a_width!(rt, check_binding)
}

fn check_shapes<I: Width>(trial: &Trial<'_, impl Abort>) -> Result<(), Fail> {
    let memory = trial.memory;
    let (graph, options) = (plain_graph::<I>(memory)?, IntOverlayOptions::default());
    let new_graph = || plain_graph::<I>(memory);
    let contours = kept(&graph)?;
    let placed = lends(trial, "overlay_extract::placed_contours", |it| {
        placed_contours(&graph, SUBJECT, options, it)
    })?;
    let places = trial.refuse_call("overlay_extract::bound_places", || {
        bound_places(memory, &contours, DIRECTION)
    })?;
    assert!(trial.rt; placed.places.len() == 3 && places.len() == 3);
    let placed = gives(
        trial,
        "overlay_extract::placed_contours",
        &new_graph,
        |graph, it| placed_contours(graph, SUBJECT, options, it),
    )?;
    assert!(trial.rt; placed.places.len() == 3);
    let shapes = lends(trial, "overlay_extract::extract_shapes", |it| {
        extract_shapes(&graph, SUBJECT, options, it)
    })?;
    let alike = gives(
        trial,
        "overlay_extract::extract_shapes",
        &new_graph,
        |graph, it| extract_shapes(graph, SUBJECT, options, it),
    )?;
    assert!(trial.rt; alike == shapes);
    let flat = trial.refuse_each(
        "overlay_extract::extract_flat_shapes",
        || Ok((
            Some(plain_graph::<I>(memory)?),
            Some(BooleanExtractionBuffer::default(memory)),
        )),
        |it| {
            let buffer = it.1.take().ok_or(AllocError)?;
            extract_flat_shapes(it.0.take().ok_or(AllocError)?, SUBJECT, options, buffer)
        },
        |_| Ok(true),
    )?;
    assert!(trial.rt; flat.to_shapes()? == shapes);
    let linked = lends(trial, "overlay_extract::extract_shape_hierarchy", |it| {
        extract_shape_hierarchy(&graph, SUBJECT, options, it)
    })?;
    assert!(trial.rt; shapes.len() == 3 && linked.links.len() == 1);
    for keeps_points in [false, true] {
        let again = trial.refuse_call("overlay_extract::assembled", || {
            assembled(memory, &contours, &places, keeps_points)
        })?;
        let flat = trial.refuse_call("overlay_extract::flat_assembled", || {
            flat_assembled(memory, &contours, &places, keeps_points)
        })?;
        assert!(trial.rt; flat.to_shapes()? == shapes);
        let first = trial.refuse_call("overlay_extract::contour", || {
            contour(memory, &contours[0].steps, keeps_points)
        })?;
        assert!(trial.rt; again == shapes && first == shapes[0][0]);
    }
    Ok(())
}

#[test]
fn functions_of_shapes(rt: HostRuntime) -> Result<(), Fail> {
    at_a_width!(rt, check_shapes)
}

fn check_flat<I: Width>(trial: &Trial<'_, impl Abort>) -> Result<(), Fail> {
    let memory = trial.memory;
    let (graph, options) = (plain_graph::<I>(memory)?, IntOverlayOptions::default());
    let new = || {
        let mut output = FlatContoursBuffer::default(memory)?;
        output.add_contour(&square(0, 2))?;
        Ok((BooleanExtractionBuffer::default(memory), output))
    };
    let (mut buffer, mut wanted) = new()?;
    extract_contours(&graph, SUBJECT, options, &mut buffer, &mut wanted)?;
    assert!(trial.rt; wanted.ranges.len() == 4);
    trial.refuse_each(
        "overlay_extract::extract_contours",
        new,
        |it| extract_contours(&graph, SUBJECT, options, &mut it.0, &mut it.1),
        |it| Ok(it.1.points.is_empty() && it.1.ranges.is_empty()),
    )
}

#[test]
fn functions_of_flat_contours(rt: HostRuntime) -> Result<(), Fail> {
    at_a_width!(rt, check_flat)
}

fn check_slices<I: Width>(trial: &Trial<'_, impl Abort>) -> Result<(), Fail> {
    let memory = trial.memory;
    let (graph, options) = (plain_graph::<I>(memory)?, IntOverlayOptions::default());
    let least: I::WideUInt = options.min_output_area;
    let orbits = trial.refuse_call("overlay_extract::side_orbits", || side_orbits(&graph))?;
    let counts = [
        count_of(trial, "overlay_extract::tours", || tours(memory, &orbits))?,
        count_of(
            trial,
            "overlay_extract::filled_loops",
            || filled_loops(&graph),
        )?,
        count_of(trial, "overlay_extract::cut_loops", || {
            cut_loops(memory, &orbits[0])
        })?,
    ];
    assert!(trial.rt; orbits.len() == 4 && counts == [4, 4, 1]);
    let contours = trial.refuse_each(
        "overlay_extract::contours_of_loops",
        || Ok(Some(filled_loops(&graph)?)),
        |it| contours_of_loops(memory, it.take().ok_or(AllocError)?),
        |_| Ok(true),
    )?;
    let found = trial.refuse_call("overlay_extract::slice_contours", || {
        slice_contours(&graph, least)
    })?;
    let shapes = trial.refuse_call("overlay_extract::sliced_shapes", || {
        sliced_shapes(&graph, DIRECTION, least)
    })?;
    assert!(trial.rt; contours.len() == 4 && found.contours.len() == 4 && shapes.len() == 3);
    for found in [
        binds(trial, &contours, || ScanTree::default(memory))?,
        binds(trial, &contours, || ScanList::default(memory))?,
    ] {
        let places = shape_places(memory, &contours, &found)?;
        let again = assembled(memory, &contours, &places, true)?;
        assert!(trial.rt; found.len() == 4 && again == shapes);
    }
    Ok(())
}

#[test]
fn functions_of_slices(rt: HostRuntime) -> Result<(), Fail> {
    at_a_width!(rt, check_slices)
}

fn check_vectors<I: Width>(trial: &Trial<'_, impl Abort>) -> Result<(), Fail> {
    let memory = trial.memory;
    let passing = passing_without_data(ShapeType::Subject);
    let graph: Graph<I, CountWithData<()>, Memory<'_>> = graph_of(memory, passing, &mut ())?;
    let options = IntOverlayOptions::default();
    let counts = [
        count_of(
            trial,
            "overlay_vector::graph_vectors",
            || graph_vectors(&graph),
        )?,
        count_of(trial, "overlay_vector::selected_vectors", || {
            selected_vectors(&graph, SUBJECT)
        })?,
    ];
    assert!(trial.rt; counts == [16, 16]);
    let shapes = lends(trial, "overlay_vector::vector_shapes", |it| {
        vector_shapes(&graph, SUBJECT, options, it, &mut ())
    })?;
    assert!(trial.rt; shapes.len() == 3);
    let contours = kept_contours(
        &graph,
        SUBJECT,
        options,
        &mut BooleanExtractionBuffer::default(memory),
    )?;
    for found in [
        binds(trial, &contours, || ScanTree::default(memory))?,
        binds(trial, &contours, || ScanList::default(memory))?,
    ] {
        let places = shape_places(memory, &contours, &found)?;
        let again = trial.refuse_call("overlay_vector::assembled", || {
            vector_contours::assembled(&graph, &contours, &places, false, &mut ())
        })?;
        assert!(trial.rt; again == shapes);
    }
    Ok(())
}

#[test]
fn functions_of_vectors(rt: HostRuntime) -> Result<(), Fail> {
    at_a_width!(rt, check_vectors)
}
