//! Contours cut with groups: a hole that touches its outline is a contour of its own.

use crate::counted::{TOUCHING, begin_at, graph_of};
use overlay_geom::error::OverlayError;
use overlay_geom::number::{IntNumber, UIntNumber};
use overlay_geom::options::ContourDirection;
use overlay_geom::overlay_rule::OverlayRule;
use overlay_walk::buffer::BooleanExtractionBuffer;
use overlay_walk::contour::Role;
use overlay_walk::selected_walks::selected_contours;
use std::alloc::Global;
use std::process::Abort;
use std::test::Fail;

// The square is an outline, which passes the point of the triangle, and the triangle is a hole of its
// group.
fn check<I: IntNumber + From<i16>>(rt: &impl Abort, alloc: Global) -> Result<(), OverlayError> {
    let graph = graph_of::<I>(rt, alloc, &TOUCHING)?;
    let mut buffer = BooleanExtractionBuffer::default(alloc);
    let (rule, direction) = (OverlayRule::Subject, ContourDirection::CounterClockwise);
    let least = I::WideUInt::zero();
    let contours = selected_contours(&graph, rule, direction, least, &mut buffer)?;
    assert!(rt; contours.len() == 2);
    assert!(rt; contours[0].role == Role::Outline(0) && contours[1].role == Role::OwnHole(0));
    let outline = [(0, 3), (0, 0), (6, 0), (6, 6), (0, 6)];
    assert!(rt; begin_at(&contours[0].steps, &outline));
    assert!(rt; begin_at(&contours[1].steps, &[(0, 3), (2, 4), (2, 2)]));
    Ok(())
}

#[test]
fn groups_at_i16(rt: HostRuntime) -> Result<(), Fail> {
    Ok(check::<i16>(&rt, rt.alloc())?)
}

#[test]
fn groups_at_i32(rt: HostRuntime) -> Result<(), Fail> {
    Ok(check::<i32>(&rt, rt.alloc())?)
}

#[test]
fn groups_at_i64(rt: HostRuntime) -> Result<(), Fail> {
    Ok(check::<i64>(&rt, rt.alloc())?)
}
