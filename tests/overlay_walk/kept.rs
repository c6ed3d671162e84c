//! Contours that are kept, the shapes to which their holes are bound, and the holes round islands.

use crate::counted::{Counted, TOUCHING, begin_at, graph_of};
use overlay_extract::binding::bind::bind_contours;
use overlay_extract::binding::islands::holes_round;
use overlay_geom::error::OverlayError;
use overlay_geom::number::IntNumber;
use overlay_geom::options::IntOverlayOptions;
use overlay_geom::overlay_rule::OverlayRule;
use overlay_graph::graph::Graph;
use overlay_order::count::ShapeCountBoolean;
use overlay_scan::list::ScanList;
use overlay_walk::buffer::BooleanExtractionBuffer;
use overlay_walk::contour::{Contour, Role};
use overlay_walk::kept_contours::kept_contours;
use std::alloc::Global;
use std::process::Abort;
use std::test::Fail;

/// A square with a square hole in it, and a triangle in the hole that touches its left side.
const ISLAND: [Counted; 11] = [
    (0, 0, 10, 0, 1),
    (10, 0, 10, 10, 1),
    (0, 10, 10, 10, -1),
    (0, 0, 0, 10, -1),
    (2, 2, 8, 2, -1),
    (8, 2, 8, 8, -1),
    (2, 8, 8, 8, 1),
    (2, 2, 2, 8, 1),
    (2, 5, 4, 4, 1),
    (4, 4, 4, 6, 1),
    (2, 5, 4, 6, -1),
];

/// Five nested squares.
const NESTED: [Counted; 20] = [
    (0, 0, 100, 0, 1),
    (100, 0, 100, 100, 1),
    (0, 100, 100, 100, -1),
    (0, 0, 0, 100, -1),
    (10, 10, 90, 10, 1),
    (90, 10, 90, 90, 1),
    (10, 90, 90, 90, -1),
    (10, 10, 10, 90, -1),
    (20, 20, 80, 20, 1),
    (80, 20, 80, 80, 1),
    (20, 80, 80, 80, -1),
    (20, 20, 20, 80, -1),
    (30, 30, 70, 30, 1),
    (70, 30, 70, 70, 1),
    (30, 70, 70, 70, -1),
    (30, 30, 30, 70, -1),
    (40, 40, 60, 40, 1),
    (60, 40, 60, 60, 1),
    (40, 60, 60, 60, -1),
    (40, 40, 40, 60, -1),
];

// The kept parts of a graph: the contours, the shapes found for them, and the holes round their outlines.
#[derive(Drop)]
struct Kept<I: IntNumber> {
    contours: Vec<Contour<I, Global>, Global>,
    shapes: Vec<Option<usize>, Global>,
    round: Vec<Option<usize>, Global>,
}

// The contours of the subject's region, bound to shapes.
fn kept_of<I: IntNumber>(
    alloc: Global,
    graph: &Graph<I, ShapeCountBoolean, Global>,
    options: IntOverlayOptions<I::WideUInt>,
) -> Result<Kept<I>, OverlayError> {
    let direction = options.output_direction;
    let mut buffer = BooleanExtractionBuffer::default(alloc);
    let contours = kept_contours(graph, OverlayRule::Subject, options, &mut buffer)?;
    let mut scan: ScanList<I, usize, Global> = ScanList::default(alloc);
    let shapes = bind_contours(alloc, &mut scan, &contours, direction)?;
    let mut scan: ScanList<I, usize, Global> = ScanList::default(alloc);
    let round = holes_round(alloc, &mut scan, &contours, direction)?;
    Ok(Kept {
        contours,
        shapes,
        round,
    })
}

// The options, with or without groups.
fn options<I: IntNumber>(ogc: bool) -> IntOverlayOptions<I::WideUInt> {
    IntOverlayOptions {
        ogc,
        ..IntOverlayOptions::default()
    }
}

// Returns whether the contours have these roles.
fn have_roles<I: IntNumber>(contours: &[Contour<I, Global>], roles: &[Role]) -> bool {
    contours.len() == roles.len() && contours.iter().zip(roles.iter()).all(|(c, r)| c.role == *r)
}

// With groups the triangle that touches the square is a hole of its group; without them it is part of it.
fn check_touching<I: IntNumber + From<i16>>(
    rt: &impl Abort,
    alloc: Global,
) -> Result<(), OverlayError> {
    let graph = graph_of::<I>(rt, alloc, &TOUCHING)?;
    let kept = kept_of(alloc, &graph, options::<I>(true))?;
    assert!(rt; kept.contours.len() == 2);
    assert!(rt; have_roles(&kept.contours, &[Role::Outline(0), Role::OwnHole(0)]));
    let outline = [(0, 3), (0, 0), (6, 0), (6, 6), (0, 6)];
    assert!(rt; begin_at(&kept.contours[0].steps, &outline));
    assert!(rt; begin_at(&kept.contours[1].steps, &[(0, 3), (2, 4), (2, 2)]));
    assert!(rt; kept.round.as_slice() == &[None][..]);
    let kept = kept_of(alloc, &graph, options::<I>(false))?;
    assert!(rt; kept.contours.len() == 1);
    assert!(rt; have_roles(&kept.contours, &[Role::Outline(0)]));
    let outline = [
        (0, 3),
        (0, 0),
        (6, 0),
        (6, 6),
        (0, 6),
        (0, 3),
        (2, 4),
        (2, 2),
    ];
    assert!(rt; begin_at(&kept.contours[0].steps, &outline));
    Ok(())
}

// With groups the triangle is a shape of its own, in the hole of the first; without them it is part of the hole.
fn check_island<I: IntNumber + From<i16>>(
    rt: &impl Abort,
    alloc: Global,
) -> Result<(), OverlayError> {
    let graph = graph_of::<I>(rt, alloc, &ISLAND)?;
    let kept = kept_of(alloc, &graph, options::<I>(true))?;
    let roles = [Role::Outline(0), Role::Outline(1), Role::FreeHole];
    assert!(rt; kept.contours.len() == 3);
    assert!(rt; kept.shapes.len() == 3);
    assert!(rt; have_roles(&kept.contours, &roles));
    let outline = [(0, 10), (0, 0), (10, 0), (10, 10)];
    assert!(rt; begin_at(&kept.contours[0].steps, &outline));
    assert!(rt; begin_at(&kept.contours[1].steps, &[(4, 6), (2, 5), (4, 4)]));
    let hole = [(2, 2), (2, 5), (2, 8), (8, 8), (8, 2)];
    assert!(rt; begin_at(&kept.contours[2].steps, &hole));
    assert!(rt; kept.shapes[2] == Some(0));
    assert!(rt; kept.round.as_slice() == &[None, Some(2)][..]);
    let kept = kept_of(alloc, &graph, options::<I>(false))?;
    assert!(rt; have_roles(&kept.contours, &[Role::Outline(0), Role::FreeHole]));
    assert!(rt; kept.shapes.len() == 2);
    assert!(rt; kept.shapes[1] == Some(0));
    assert!(rt; kept.round.as_slice() == &[None][..]);
    Ok(())
}

// Round each inner shape is the hole of the shape before it.
fn check_nested<I: IntNumber + From<i16>>(
    rt: &impl Abort,
    alloc: Global,
) -> Result<(), OverlayError> {
    let graph = graph_of::<I>(rt, alloc, &NESTED)?;
    let kept = kept_of(alloc, &graph, options::<I>(true))?;
    let roles = [
        Role::Outline(0),
        Role::Outline(1),
        Role::Outline(2),
        Role::FreeHole,
        Role::FreeHole,
    ];
    assert!(rt; have_roles(&kept.contours, &roles));
    assert!(rt; kept.shapes.len() == 5);
    assert!(rt; kept.shapes[3] == Some(0) && kept.shapes[4] == Some(1));
    assert!(rt; kept.round.as_slice() == &[None, Some(3), Some(4)][..]);
    let kept = kept_of(alloc, &graph, options::<I>(false))?;
    let roles = [
        Role::Outline(0),
        Role::FreeHole,
        Role::Outline(1),
        Role::FreeHole,
        Role::Outline(2),
    ];
    assert!(rt; have_roles(&kept.contours, &roles));
    assert!(rt; kept.shapes.len() == 5);
    assert!(rt; kept.shapes[1] == Some(0) && kept.shapes[3] == Some(1));
    assert!(rt; kept.round.as_slice() == &[None, Some(1), Some(3)][..]);
    Ok(())
}

// With groups a minimum area of 3 leaves the triangle out, whose area is 2, and one of 37 the square too.
fn check_minimum<I: IntNumber + From<i16>>(
    rt: &impl Abort,
    alloc: Global,
    three: I::WideUInt,
    more: I::WideUInt,
) -> Result<(), OverlayError> {
    let graph = graph_of::<I>(rt, alloc, &TOUCHING)?;
    let large = IntOverlayOptions {
        min_output_area: three,
        ..options::<I>(true)
    };
    let kept = kept_of(alloc, &graph, large)?;
    assert!(rt; have_roles(&kept.contours, &[Role::Outline(0)]));
    let larger = IntOverlayOptions {
        min_output_area: more,
        ..large
    };
    let kept = kept_of(alloc, &graph, larger)?;
    assert!(rt; kept.contours.is_empty() && kept.round.is_empty());
    Ok(())
}

// All of these, with 3 and 37 as areas.
fn check<I: IntNumber + From<i16>>(
    rt: &impl Abort,
    alloc: Global,
    three: I::WideUInt,
    more: I::WideUInt,
) -> Result<(), OverlayError> {
    check_touching::<I>(rt, alloc)?;
    check_island::<I>(rt, alloc)?;
    check_nested::<I>(rt, alloc)?;
    check_minimum::<I>(rt, alloc, three, more)
}

#[test]
fn kept_at_i16(rt: HostRuntime) -> Result<(), Fail> {
    Ok(check::<i16>(&rt, rt.alloc(), 3, 37)?)
}

#[test]
fn kept_at_i32(rt: HostRuntime) -> Result<(), Fail> {
    Ok(check::<i32>(&rt, rt.alloc(), 3, 37)?)
}

#[test]
fn kept_at_i64(rt: HostRuntime) -> Result<(), Fail> {
    Ok(check::<i64>(&rt, rt.alloc(), 3, 37)?)
}
