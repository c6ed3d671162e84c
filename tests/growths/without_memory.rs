//! The calls that take no memory, of those that have an allocator at hand.

use crate::figures::{PATHS, Width, flat_squares, point, square, square_at, squares};
use crate::overlay_adders::builder;
use crate::refusals::{Answer, Memory, Trial};
use crate::seen::Seen;
use i_overlay::edge_overlay::{EdgeOverlay, InputEdge};
use i_overlay::extract::BooleanExtractionBuffer;
use i_overlay::hierarchy::FlatShapeHierarchy;
use i_overlay::i_shape::flat::buffer::{FlatContoursBuffer, FlatShapesBuffer};
use i_overlay::i_shape::source::int::resource::IntShapeResource;
use i_overlay::integer::{in_range, is_resolved};
use i_overlay::overlay::ShapeType;
use i_overlay::relate::PredicateOverlay;
use overlay_scan::list::ScanList;
use overlay_scan::scan::Scan;
use overlay_scan::tree::ScanTree;
use std::cmp::Ordering;
use std::process::Abort;
use std::test::Fail;

fn check_defaults<I: Width>(trial: &Trial<'_, impl Abort>) -> Result<(), Fail> {
    let memory = trial.memory;
    let buffer = trial.needs_none(
        "FlatContoursBuffer::default",
        || FlatContoursBuffer::<I, _>::default(memory),
    )?;
    assert!(trial.rt; buffer.ranges.len() == 0 && buffer.as_first_contour().len() == 0);
    let shapes = trial.needs_none(
        "FlatShapesBuffer::default",
        || FlatShapesBuffer::<I, _>::default(memory),
    )?;
    assert!(trial.rt; shapes.shape_ranges.len() == 0);
    let hierarchy = trial.needs_none(
        "FlatShapeHierarchy::default",
        || FlatShapeHierarchy::<I, _>::default(memory),
    )?;
    assert!(trial.rt; hierarchy.links.len() == 0);
    let mut slot = Some(trial.without_memory(|| BooleanExtractionBuffer::<I, _>::default(memory)));
    for _ in 0..2 {
        trial.needs_none("BooleanExtractionBuffer::taken_from", || {
            BooleanExtractionBuffer::taken_from(&mut slot, &memory)
        })?;
        assert!(trial.rt; slot.is_none());
    }
    Ok(())
}

#[test]
fn defaults(rt: HostRuntime) -> Result<(), Fail> {
    at_a_width!(rt, check_defaults)
}

fn check_clear<I: Width>(trial: &Trial<'_, impl Abort>) -> Result<(), Fail> {
    let memory = trial.memory;
    let mut overlay = builder::<I>(memory, 1)?;
    trial.without_memory(|| overlay.clear());
    assert!(trial.rt; overlay.content()?.len() == 0);
    let mut overlay: PredicateOverlay<I, Memory<'_>> = PredicateOverlay::new(memory, 0)?;
    overlay.add_contour(&square(0, 2), ShapeType::Subject)?;
    overlay.add_contour(&square(1, 4), ShapeType::Clip)?;
    trial.without_memory(|| overlay.clear());
    assert!(trial.rt; !overlay.intersects()?);
    Ok(())
}

#[test]
fn clear(rt: HostRuntime) -> Result<(), Fail> {
    at_a_width!(rt, check_clear)
}

fn check_buffers<I: Width>(trial: &Trial<'_, impl Abort>) -> Result<(), Fail> {
    let mut buffer = flat_squares::<I>(trial.memory)?;
    let shape = squares::<I>(trial.memory, PATHS)?;
    let first = square_at(0);
    trial.without_memory(|| {
        assert!(trial.rt; !buffer.is_single_contour());
        assert!(trial.rt; buffer.as_first_contour() == &first[..]);
        assert!(trial.rt; &*buffer.as_first_contour_mut() == &first[..]);
        assert!(trial.rt; buffer.path_count() == PATHS && shape.path_count() == PATHS);
        assert!(trial.rt; shape.path(0) == &first[..] && buffer.path(0) == &first[..]);
        assert!(trial.rt; in_range(&first) && is_resolved(&first));
    });
    Ok(())
}

#[test]
fn buffers_and_resources(rt: HostRuntime) -> Result<(), Fail> {
    at_a_width!(rt, check_buffers)
}

fn check_edges<I: Width>(trial: &Trial<'_, impl Abort>) -> Result<(), Fail> {
    let mut overlay: EdgeOverlay<I, (), Memory<'_>> = EdgeOverlay::new(trial.memory, 0)?;
    let edge = InputEdge {
        a: point(0, 0),
        b: point(1, 0),
        edge_data: (),
    };
    overlay.add_edge(edge, ShapeType::Subject)?;
    trial.without_memory(|| {
        assert!(trial.rt; !overlay.is_balanced() && overlay.edges().count() == 1);
        assert!(trial.rt; *overlay.data_store() == () && *overlay.data_store_mut() == ());
        assert!(trial.rt; overlay.into_data_store() == ());
    });
    Ok(())
}

#[test]
fn edges_that_are_held(rt: HostRuntime) -> Result<(), Fail> {
    at_a_width!(rt, check_edges)
}

// Look-ups in a sweep of one level edge.
fn looks_up<I: Width, S: Scan<I, i16> + Drop>(
    trial: &Trial<'_, impl Abort>,
    mut scan: S,
) -> Answer<()> {
    scan.insert([point(0, 1), point(9, 1)], 5, I::from(0))?;
    trial.without_memory(|| {
        let above = [point(2, 4), point(9, 4)];
        assert!(trial.rt; scan.first_less(I::from(2), -1, above) == 5);
        let below = |_| Ordering::Greater;
        assert!(trial.rt; scan.first_less_or_equal_by(I::from(3), -1, below) == -1);
        scan.clear();
        assert!(trial.rt; scan.first_less(I::from(0), -1, [point(0, 4), point(9, 4)]) == -1);
    });
    Ok(())
}

fn check_scans<I: Width>(trial: &Trial<'_, impl Abort>) -> Result<(), Fail> {
    let memory = trial.memory;
    let list = trial.without_memory(|| ScanList::<I, i16, _>::default(memory));
    looks_up::<I, _>(trial, list)?;
    let tree = trial.without_memory(|| ScanTree::<I, i16, _>::default(memory));
    looks_up::<I, _>(trial, tree)?;
    Ok(())
}

#[test]
fn look_ups_in_scans(rt: HostRuntime) -> Result<(), Fail> {
    at_a_width!(rt, check_scans)
}
