//! Flat buffers and hierarchies: a refusal changes nothing, or empties what is cleared first.

use crate::figures::{Width, flat_squares, lone_squares, square_at};
use crate::overlay_queries::{is_empty, overlapping};
use crate::refusals::{Answer, Memory, Trial};
use i_overlay::fill_rule::FillRule;
use i_overlay::i_float::int::point::IntPoint;
use i_overlay::i_shape::flat::buffer::{FlatContoursBuffer, FlatShapesBuffer};
use i_overlay::overlay_rule::OverlayRule;
use std::process::Abort;
use std::test::Fail;

fn check_contours<I: Width>(trial: &Trial<'_, impl Abort>) -> Result<(), Fail> {
    let memory = trial.memory;
    let (old, more) = (flat_squares::<I>(memory)?, square_at::<I>(0));
    let copy = trial.refuse_call("FlatContoursBuffer::clone", || old.clone())?;
    assert!(trial.rt; copy == old);
    trial.refuse_each(
        "FlatContoursBuffer::clear_and_reserve",
        || flat_squares::<I>(memory),
        |it| it.clear_and_reserve(100, 100),
        |it| Ok(is_empty(it)),
    )?;
    trial.refuse_each(
        "FlatContoursBuffer::add_contour",
        || {
            let mut buffer = FlatContoursBuffer::default(memory)?;
            buffer.add_contour(&more)?;
            Ok(buffer)
        },
        |it| -> Answer<()> {
            for _ in 0..9 {
                it.add_contour(&more)?;
            }
            Ok(())
        },
        |it| Ok(are_copies(it, &more)),
    )
}

// Whether the buffer has contours of these points, one after another, and nothing else.
fn are_copies<I: Width>(
    buffer: &FlatContoursBuffer<I, Memory<'_>>,
    points: &[IntPoint<I>; 4],
) -> bool {
    for (at, range) in buffer.ranges.iter().enumerate() {
        let (start, end) = (4 * at, 4 * at + 4);
        if range.start != start || range.end != end || buffer.points[start..end] != points[..] {
            return false;
        }
    }
    buffer.ranges.len() > 0 && buffer.points.len() == 4 * buffer.ranges.len()
}

#[test]
fn flat_contours(rt: HostRuntime) -> Result<(), Fail> {
    at_each_width!(rt, check_contours)
}

fn check_shapes<I: Width>(trial: &Trial<'_, impl Abort>) -> Result<(), Fail> {
    let memory = trial.memory;
    let shapes = lone_squares::<I>(memory)?;
    let old = FlatShapesBuffer::from_shapes(memory, &shapes)?;
    trial.refuse_call("FlatShapesBuffer::with_capacity", || {
        FlatShapesBuffer::<I, _>::with_capacity(memory, 4, 1, 1)
    })?;
    let made = trial.refuse_call("FlatShapesBuffer::from_shapes", || {
        FlatShapesBuffer::from_shapes(memory, &shapes)
    })?;
    assert!(trial.rt; made == old);
    let copy = trial.refuse_call("FlatShapesBuffer::clone", || old.clone())?;
    assert!(trial.rt; copy == old);
    let again = trial.refuse_call("FlatShapesBuffer::to_shapes", || old.to_shapes())?;
    assert!(trial.rt; again == shapes);
    Ok(())
}

#[test]
fn flat_shapes(rt: HostRuntime) -> Result<(), Fail> {
    at_each_width!(rt, check_shapes)
}

fn check_hierarchy<I: Width>(trial: &Trial<'_, impl Abort>) -> Result<(), Fail> {
    let mut overlay = overlapping::<I>(trial.memory)?;
    let old = overlay.overlay_hierarchy(OverlayRule::Subject, FillRule::EvenOdd)?;
    assert!(trial.rt; old.links.len() == 1);
    let copy = trial.refuse_call("FlatShapeHierarchy::clone", || old.clone())?;
    assert!(trial.rt; copy == old);
    Ok(())
}

#[test]
fn hierarchies(rt: HostRuntime) -> Result<(), Fail> {
    at_a_width!(rt, check_hierarchy)
}
