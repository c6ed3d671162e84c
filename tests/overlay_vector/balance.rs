//! Tests whether edges are balanced, at each coordinate type.

use crate::colour::Colour;
use crate::edges::{Place, add_way};
use overlay_geom::integer::OverlayInt;
use overlay_vector::edge_overlay::{EdgeOverlay, ShapeType};
use std::alloc::Global;
use std::process::Abort;
use std::test::Fail;

// A triangle, its three sides without the last, and the last side alone.
const CLOSED: &[Place] = &[(0, 0), (4, 0), (0, 4), (0, 0)];

const OPEN: &[Place] = &[(0, 0), (4, 0), (0, 4)];

const BACK: &[Place] = &[(0, 4), (0, 0)];

// Tests whether the edges along these places, of the subject and of the clip, are balanced.
fn balanced<I: OverlayInt + From<i16>>(
    rt: &impl Abort,
    alloc: Global,
    subj: &[Place],
    clip: &[Place],
) -> Result<bool, Fail> {
    let mut overlay: EdgeOverlay<I, Colour, Global> = EdgeOverlay::new(alloc, 0)?;
    add_way(rt, &mut overlay, subj, Colour::Red, ShapeType::Subject)?;
    add_way(rt, &mut overlay, clip, Colour::Green, ShapeType::Clip)?;
    Ok(overlay.is_balanced())
}

// The subject and the clip are balanced each by itself: neither makes up for the other.
fn rows<I: OverlayInt + From<i16>>(rt: &impl Abort, alloc: Global) -> Result<(), Fail> {
    assert!(rt; balanced::<I>(rt, alloc, &[], &[])?);
    assert!(rt; balanced::<I>(rt, alloc, CLOSED, &[])?);
    assert!(rt; balanced::<I>(rt, alloc, CLOSED, CLOSED)?);
    assert!(rt; !balanced::<I>(rt, alloc, OPEN, &[])?);
    assert!(rt; !balanced::<I>(rt, alloc, CLOSED, OPEN)?);
    assert!(rt; !balanced::<I>(rt, alloc, OPEN, BACK)?);
    Ok(())
}

#[test]
fn edges_balanced(rt: HostRuntime) -> Result<(), Fail> {
    rows::<i16>(&rt, rt.alloc())?;
    rows::<i32>(&rt, rt.alloc())?;
    rows::<i64>(&rt, rt.alloc())
}
