//! Buffers in one list: of squares, of lone squares, and of nested squares.

use crate::figures::{COUNT, flat_squares, lone_squares};
use crate::overlays::{are_links, nested};
use i_overlay::fill_rule::FillRule;
use i_overlay::i_shape::flat::buffer::{FlatContoursBuffer, FlatShapesBuffer};
use i_overlay::overlay_rule::OverlayRule;
use std::alloc::Global;
use std::process::Abort;
use std::test::Fail;

#[test]
fn contours_of_a_buffer(rt: HostRuntime) -> Result<(), Fail> {
    let alloc = rt.alloc();
    let buffer = flat_squares(alloc, 0, 4)?;
    let copy = buffer.clone()?;
    assert!(&rt; copy.points == buffer.points && copy.ranges == buffer.ranges);
    let mut roomy: FlatContoursBuffer<i32, Global> = FlatContoursBuffer::default(alloc)?;
    roomy.clear_and_reserve(4 * COUNT, COUNT)?;
    assert!(&rt; roomy.points.capacity() >= 4 * COUNT && roomy.ranges.capacity() >= COUNT);
    Ok(())
}

#[test]
fn shapes_of_a_buffer(rt: HostRuntime) -> Result<(), Fail> {
    let alloc = rt.alloc();
    let shapes = lone_squares(alloc, 0, 4)?;
    let buffer = FlatShapesBuffer::from_shapes(alloc, &shapes)?;
    assert!(&rt; buffer.to_shapes()? == shapes && buffer.clone()?.to_shapes()? == shapes);
    let roomy: FlatShapesBuffer<i32, Global> = FlatShapesBuffer::with_capacity(
        alloc,
        4 * COUNT,
        COUNT,
        COUNT,
    )?;
    assert!(&rt; roomy.points.capacity() >= 4 * COUNT && roomy.shape_ranges.capacity() >= COUNT);
    Ok(())
}

#[test]
fn a_hierarchy(rt: HostRuntime) -> Result<(), Fail> {
    let mut overlay = nested(rt.alloc())?;
    let found = overlay.overlay_hierarchy(OverlayRule::Subject, FillRule::EvenOdd)?;
    let copy = found.clone()?;
    assert!(&rt; copy.shapes.points == found.shapes.points && are_links(&copy.links));
    Ok(())
}
