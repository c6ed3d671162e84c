//! Free functions of `i_overlay` and of crates below it: of contours and points, and of builders.

use crate::figures::{PATHS, Width, lone_squares, point, square, square_at, squares};
use crate::refusals::{Answer, Memory, Trial};
use i_overlay::fill_rule::FillRule;
use i_overlay::i_float::int::point::IntPoint;
use i_overlay::overlay::{ContourDirection, ShapeType};
use i_overlay::point_location::PointLocation;
use i_overlay::segm::boolean::ShapeCountBoolean;
use i_overlay::simplifying::outcome::Outcome;
use i_overlay::simplifying::shapes::shapes_left;
use i_overlay::simplifying::simple::{Simplifying, outcome_of_contour};
use i_overlay::solver::Solver;
use overlay_arrange::content::Content;
use overlay_builder::boolean::passing;
use overlay_builder::builder_core::BuilderCore;
use overlay_builder::path::{PathKind, add_path};
use overlay_builder::points::gathered;
use overlay_geom::error::OverlayError;
use overlay_geom::flat::copied;
use overlay_geom::thin::{push_thinned, thinned};
use overlay_graph::balance::is_balanced;
use overlay_graph::fill::{fills, fills_of_balanced};
use overlay_graph::fill_sweep::fills_by_sweep;
use overlay_order::data::CountWithData;
use overlay_order::edge::CountedEdge;
use overlay_order::sort_numbers::order_by_numbers;
use overlay_order::sort_points::order_by_points;
use overlay_pairs::settle::is_settled;
use overlay_relate::in_contour::{locate_by, locate_from, locate_in_contour};
use overlay_relate::in_shapes::{locate_in_shape, locate_in_shapes};
use overlay_relate::resolved::is_resolved_in;
use overlay_scan::list::ScanList;
use overlay_scan::tree::ScanTree;
use std::process::Abort;
use std::test::Fail;

const RULE: FillRule = FillRule::EvenOdd;
// Number of points from which on they are put in order.
const MANY: usize = 1024;

type Counted<'m, I> = Content<I, ShapeCountBoolean, Memory<'m>>;

// The steps of the first squares, and room for two more.
fn content<I: Width>(memory: Memory<'_>) -> Answer<Counted<'_, I>> {
    let mut content = Content::with_capacity(memory, 4 * PATHS + 2)?;
    for place in 0..PATHS {
        let kind = PathKind::Closed;
        add_path(
            &mut content,
            &square_at(place),
            kind,
            passing(ShapeType::Subject),
        )?;
    }
    Ok(content)
}

// The places of the squares, the last first.
fn places_down(memory: Memory<'_>) -> Answer<Vec<usize, Memory<'_>>> {
    let mut places = Vec::with_capacity(memory, PATHS)?;
    for place in 0..PATHS {
        places.push(PATHS - 1 - place)?;
    }
    Ok(places)
}

// Many points, the last in their order first.
fn points_down<I: Width>(memory: Memory<'_>) -> Answer<Vec<IntPoint<I>, Memory<'_>>> {
    let mut points = Vec::new(memory);
    for _ in 0..MANY / 2 {
        points.push(point(1, 1))?;
    }
    for _ in 0..MANY / 2 {
        points.push(point(0, 0))?;
    }
    Ok(points)
}

// The filled sides of the squares' edges, also with live edges in a tree and in a list.
fn check_fills<'m, I: Width>(
    trial: &Trial<'m, impl Abort>,
    edges: &[CountedEdge<I, ShapeCountBoolean>],
) -> Result<(), Fail> {
    let memory = trial.memory;
    let wanted = trial.refuse_call("overlay_graph::fills", || fills(memory, edges, RULE))?;
    assert!(trial.rt; &wanted[..4] == &[2, 1, 2, 1][..] && wanted.len() == 4 * PATHS);
    let found = [
        trial.refuse_call("overlay_graph::fills_of_balanced", || {
            fills_of_balanced(memory, edges, RULE)
        })?,
        trial.refuse_each(
            "overlay_graph::fills_by_sweep",
            || Ok(ScanTree::default(memory)),
            |it| fills_by_sweep(memory, it, edges, RULE),
            |_| Ok(true),
        )?,
        trial.refuse_each(
            "overlay_graph::fills_by_sweep",
            || Ok(ScanList::default(memory)),
            |it| fills_by_sweep(memory, it, edges, RULE),
            |_| Ok(true),
        )?,
    ];
    for fills in &found {
        assert!(trial.rt; *fills == wanted);
    }
    Ok(())
}

fn check_edges<I: Width>(trial: &Trial<'_, impl Abort>) -> Result<(), Fail> {
    let memory = trial.memory;
    let mut held = content::<I>(memory)?;
    held.merge(&mut ())?;
    let edges = held.edges();
    let told = [
        trial.refuse_call("overlay_graph::is_balanced", || is_balanced(memory, edges))?,
        trial.refuse_call("overlay_pairs::is_settled", || is_settled(memory, edges))?,
    ];
    assert!(trial.rt; told == [true, true]);
    check_fills(trial, edges)?;
    trial.refuse_each(
        "overlay_order::order_by_numbers",
        || places_down(memory),
        |it| order_by_numbers(it, PATHS, |place| *place),
        |it| Ok(it[..] == places_down(memory)?[..]),
    )?;
    trial.refuse_each(
        "overlay_order::order_by_points",
        || points_down::<I>(memory),
        |it| order_by_points(it, |p| *p),
        |it| Ok(it[..] == points_down::<I>(memory)?[..]),
    )
}

#[test]
fn functions_of_edges(rt: HostRuntime) -> Result<(), Fail> {
    at_a_width!(rt, check_edges)
}

fn check_paths<I: Width>(trial: &Trial<'_, impl Abort>) -> Result<(), Fail> {
    let memory = trial.memory;
    let more = square::<I>(0, 2);
    let kept = content::<I>(memory)?;
    for kind in [PathKind::Closed, PathKind::Thinned] {
        trial.refuse_each(
            "overlay_builder::add_path",
            || content::<I>(memory),
            |it| add_path(it, &more, kind, passing(ShapeType::Clip)),
            |it| Ok(it.edges() == kept.edges()),
        )?;
    }
    let points = trial.refuse_call("overlay_builder::gathered", || {
        gathered(memory, more.iter().copied())
    })?;
    assert!(trial.rt; &points[..] == &more[..]);
    let points = trial.refuse_call("overlay_geom::copied", || copied(memory, &more))?;
    assert!(trial.rt; &points[..] == &more[..]);
    let longer: [IntPoint<I>; 5] = [
        point(0, 0),
        point(1, 0),
        point(2, 0),
        point(2, 2),
        point(0, 2),
    ];
    let points = trial.refuse_call("overlay_geom::thinned", || thinned(memory, &longer))?;
    assert!(trial.rt; &points[..] == &more[..]);
    let points = trial.refuse_call("overlay_geom::push_thinned", || {
        let (mut output, mut room) = (Vec::new(memory), Vec::new(memory));
        push_thinned(&mut output, &mut room, &longer).map(|_| output)
    })?;
    assert!(trial.rt; &points[..] == &more[..]);
    Ok(())
}

#[test]
fn functions_of_paths(rt: HostRuntime) -> Result<(), Fail> {
    at_a_width!(rt, check_paths)
}

fn check_points<I: Width>(trial: &Trial<'_, impl Abort>) -> Result<(), Fail> {
    let memory = trial.memory;
    let points: [IntPoint<I>; 3] = [point(11, 11), point(9, 9), point(12, 11)];
    let wanted = [
        PointLocation::Inside,
        PointLocation::Outside,
        PointLocation::Boundary,
    ];
    let (contour, shape) = (square_at::<I>(0), squares::<I>(memory, PATHS)?);
    let shapes = lone_squares::<I>(memory)?;
    let is_resolved = trial.refuse_call("overlay_relate::is_resolved_in", || {
        is_resolved_in(memory, &contour)
    })?;
    assert!(trial.rt; is_resolved);
    let located = [
        trial.refuse_call("overlay_relate::locate_in_contour", || {
            locate_in_contour(memory, &contour, &points)
        })?,
        trial.refuse_call("overlay_relate::locate_in_shape", || {
            locate_in_shape(memory, &shape, &points)
        })?,
        trial.refuse_call("overlay_relate::locate_in_shapes", || {
            locate_in_shapes(memory, &shapes, &points)
        })?,
        trial.refuse_call("overlay_relate::locate_from", || {
            locate_from(memory, &contour, &points, 0)
        })?,
        trial.refuse_call("overlay_relate::locate_from", || {
            locate_from(memory, &contour, &points, usize::MAX)
        })?,
        trial.refuse_each(
            "overlay_relate::locate_by",
            || Ok(ScanTree::default(memory)),
            |it| locate_by(memory, it, &contour, &points),
            |_| Ok(true),
        )?,
        trial.refuse_each(
            "overlay_relate::locate_by",
            || Ok(ScanList::default(memory)),
            |it| locate_by(memory, it, &contour, &points),
            |_| Ok(true),
        )?,
    ];
    for each in &located {
        assert!(trial.rt; &each[..] == &wanted[..]);
    }
    Ok(())
}

#[test]
fn functions_of_points(rt: HostRuntime) -> Result<(), Fail> {
    at_a_width!(rt, check_points)
}

fn check_simplifying<I: Width>(trial: &Trial<'_, impl Abort>) -> Result<(), Fail> {
    let (memory, contour) = (trial.memory, square::<I>(0, 2));
    for outcome in [Outcome::AsGiven, Outcome::Reversed] {
        let shapes = trial.refuse_call("i_overlay::shapes_left", || {
            shapes_left(memory, &contour, outcome)
        })?;
        assert!(trial.rt; shapes.len() == 1);
    }
    for solver in [Solver::ABSOLUTE, Solver::SNAPPED] {
        let outcome = trial.refuse_each(
            "i_overlay::outcome_of_contour",
            || Ok(BuilderCore::<I, CountWithData<()>, Memory<'_>>::with_capacity(memory, 0)?),
            |it| {
                let asked = Simplifying {
                    solver,
                    keeps_points: false,
                    fill_rule: RULE,
                    output_direction: ContourDirection::CounterClockwise,
                };
                outcome_of_contour(it, &contour, asked)
            },
            |it| Ok(it.check_usable() == Err(OverlayError::Failed)),
        )?;
        assert!(trial.rt; outcome == Outcome::AsGiven);
    }
    Ok(())
}

#[test]
fn functions_of_simplifying(rt: HostRuntime) -> Result<(), Fail> {
    at_a_width!(rt, check_simplifying)
}
