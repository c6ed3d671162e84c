//! The core of a builder: paths of each kind, and what a refused query leaves.

use overlay_builder::boolean::passing;
use overlay_builder::builder_core::BuilderCore;
use overlay_builder::path::{PathKind, StepCounts, contour_kind};
use overlay_geom::error::OverlayError;
use overlay_geom::number::IntNumber;
use overlay_geom::options::ShapeType;
use overlay_geom::path::PathRef;
use overlay_geom::point::{IntPoint, in_range};
use overlay_geom::solver::Solver;
use overlay_order::count::ShapeCountBoolean;
use std::alloc::Global;
use std::process::Abort;
use std::test::Fail;

type Core<I> = BuilderCore<I, ShapeCountBoolean, Global>;

// A path whose second point is collinear with its neighbours.
fn path_with_a_straight_point<I: Copy>(zero: I, two: I, four: I) -> [IntPoint<I>; 4] {
    [
        IntPoint::new(zero, zero),
        IntPoint::new(two, zero),
        IntPoint::new(four, zero),
        IntPoint::new(four, four),
    ]
}

// Adds a path of the subject to a core, and checks whether a point was left out and the number of edges.
fn check_path<I: IntNumber>(
    rt: &impl Abort,
    alloc: Global,
    path: &[IntPoint<I>],
    kind: PathKind,
    leaves_out: bool,
    count: usize,
) -> Result<(), OverlayError> {
    let mut core: Core<I> = BuilderCore::with_capacity(alloc, 0)?;
    assert!(rt; in_range(path));
    let told = core.add_path(path, kind, passing(ShapeType::Subject))?;
    assert!(rt; told == leaves_out);
    assert!(rt; core.content().len() == count);
    Ok(())
}

// Open it has three steps, closed four, and thinned three again.
fn check_kinds<I: IntNumber>(
    rt: &impl Abort,
    alloc: Global,
    zero: I,
    two: I,
    four: I,
) -> Result<(), OverlayError> {
    let path = path_with_a_straight_point(zero, two, four);
    check_path(rt, alloc, &path, PathKind::Open, false, 3)?;
    check_path(rt, alloc, &path, PathKind::Closed, false, 4)?;
    check_path(rt, alloc, &path, PathKind::Thinned, true, 3)
}

#[test]
fn paths_of_each_kind(rt: HostRuntime) -> Result<(), Fail> {
    check_kinds(&rt, rt.alloc(), 0i16, 2, 4)?;
    check_kinds(&rt, rt.alloc(), 0i32, 2, 4)?;
    check_kinds(&rt, rt.alloc(), 0i64, 2, 4)?;
    Ok(())
}

#[test]
fn a_bent_path_leaves_out_no_point(rt: HostRuntime) -> Result<(), Fail> {
    let path = [
        IntPoint::new(0i32, 0),
        IntPoint::new(4, 0),
        IntPoint::new(4, 4),
    ];
    check_path(&rt, rt.alloc(), &path, contour_kind(false), false, 3)?;
    check_path(&rt, rt.alloc(), &path, contour_kind(true), false, 3)?;
    Ok(())
}

#[test]
fn a_failed_core_refuses_until_it_is_cleared(rt: HostRuntime) -> Result<(), Fail> {
    let mut core: Core<i32> = BuilderCore::with_capacity(rt.alloc(), 4)?;
    core.set_failed(true);
    assert!(rt; core.check_usable() == Err(OverlayError::Failed));
    assert!(rt; core.arrange(Solver::ABSOLUTE, &mut ()) == Err(OverlayError::Failed));
    core.clear();
    assert!(rt; core.check_usable() == Ok(()));
    assert!(rt; core.arrange(Solver::ABSOLUTE, &mut ()) == Ok(false));
    Ok(())
}

#[test]
fn paths_of_a_resource_are_added_and_arranged(rt: HostRuntime) -> Result<(), Fail> {
    let mut core: Core<i32> = BuilderCore::with_capacity(rt.alloc(), 0)?;
    let path = path_with_a_straight_point(0i32, 2, 4);
    assert!(rt; in_range(&path));
    let resource = PathRef::new(&path);
    core.add_paths(&resource, PathKind::Thinned, passing(ShapeType::Clip))?;
    assert!(rt; core.content().len() == 3);
    assert!(rt; core.arrange(Solver::ABSOLUTE, &mut ()) == Ok(false));
    assert!(rt; core.content().len() == 3);
    Ok(())
}

#[test]
fn a_path_that_weighs_too_much_is_refused(rt: HostRuntime) -> Result<(), Fail> {
    let heavy = ShapeCountBoolean {
        subj: 1073741824,
        clip: 0,
    };
    let heavy_steps = StepCounts {
        along: heavy,
        back: heavy,
    };
    let mut core: Core<i32> = BuilderCore::with_capacity(rt.alloc(), 0)?;
    let path = [IntPoint::new(0i32, 0), IntPoint::new(4, 0)];
    assert!(rt; in_range(&path));
    let first = core.add_path(&path, PathKind::Open, heavy_steps);
    assert!(rt; first == Ok(false));
    let second = core.add_path(&path, PathKind::Open, heavy_steps);
    assert!(rt; second == Err(OverlayError::TooManyEdges));
    assert!(rt; core.content().len() == 1);
    Ok(())
}
