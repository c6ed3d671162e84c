//! A contour of 8003 edges, at each width.

use crate::asked::{ask_resolved, points};
use overlay_geom::error::OverlayError;
use overlay_geom::integer::OverlayInt;
use overlay_geom::path::IntContour;
use overlay_geom::point::IntPoint;
use overlay_relate::resolved::is_resolved_in;
use std::alloc::Global;
use std::process::Abort;
use std::test::Fail;

// A saw with this number of edges along its teeth, and its back.
fn saw_of<I: OverlayInt + From<i16>>(
    alloc: Global,
    edges: i16,
) -> Result<IntContour<I, Global>, OverlayError> {
    let mut contour = Vec::new(alloc);
    for i in 0..edges + 1 {
        contour.push(IntPoint::new(I::from(i), I::from(i % 2)))?;
    }
    contour.push(IntPoint::new(I::from(edges), I::from(-10)))?;
    contour.push(IntPoint::new(I::from(0), I::from(-10)))?;
    Ok(contour)
}

fn saw<I: OverlayInt + From<i16>>(rt: &impl Abort, alloc: Global) -> Result<(), Fail> {
    let contour = saw_of::<I>(alloc, 8000)?;
    assert!(rt; is_resolved_in(alloc, &contour)?);
    let asked = [[1, 0], [1, 2], [2, 1], [3, 0], [4000, -5], [8001, -5]];
    let asked = points::<I>(alloc, &asked)?;
    let answers = ask_resolved(rt, alloc, &contour, &asked)?;
    assert!(rt; answers.inside.as_slice() == [true, false, false, true, true, false].as_slice());
    Ok(())
}

#[test]
fn a_saw_of_many_edges_at_i16(rt: HostRuntime) -> Result<(), Fail> {
    saw::<i16>(&rt, rt.alloc())
}

#[test]
fn a_saw_of_many_edges_at_i32(rt: HostRuntime) -> Result<(), Fail> {
    saw::<i32>(&rt, rt.alloc())
}

#[test]
fn a_saw_of_many_edges_at_i64(rt: HostRuntime) -> Result<(), Fail> {
    saw::<i64>(&rt, rt.alloc())
}
