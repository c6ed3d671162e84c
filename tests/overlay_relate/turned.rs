//! A contour of 4,203 edges, most of them over one x: its live edges begin in a list, which turns into a tree.

use crate::asked::{ask_resolved, points};
use overlay_geom::error::OverlayError;
use overlay_geom::integer::OverlayInt;
use overlay_geom::path::IntContour;
use overlay_geom::point::IntPoint;
use overlay_relate::location::PointLocation;
use overlay_relate::resolved::is_resolved_in;
use std::alloc::Global;
use std::process::Abort;
use std::test::Fail;

// Number of edges along its teeth.
const TEETH: i16 = 4200;

// A comb, whose teeth reach from 0 to 10, one above the other, and its back.
fn comb<I: OverlayInt + From<i16>>(alloc: Global) -> Result<IntContour<I, Global>, OverlayError> {
    let mut contour = Vec::new(alloc);
    for i in 0..TEETH + 1 {
        contour.push(IntPoint::new(I::from(10 * (i % 2)), I::from(2 * i)))?;
    }
    contour.push(IntPoint::new(I::from(-10), I::from(2 * TEETH)))?;
    contour.push(IntPoint::new(I::from(-10), I::from(0)))?;
    Ok(contour)
}

// Halfway up each edge the comb ends at 5.
fn check<I: OverlayInt + From<i16>>(rt: &impl Abort, alloc: Global) -> Result<(), Fail> {
    let contour = comb::<I>(alloc)?;
    assert!(rt; is_resolved_in(alloc, &contour)?);
    let mut asked = Vec::new(alloc);
    let mut wanted = Vec::new(alloc);
    for i in 0..TEETH {
        asked.extend_from_slice(&[[4, 2 * i + 1], [5, 2 * i + 1], [6, 2 * i + 1]])?;
        wanted.extend_from_slice(&[
            PointLocation::Inside,
            PointLocation::Boundary,
            PointLocation::Outside,
        ])?;
    }
    let asked = points::<I>(alloc, &asked)?;
    let answers = ask_resolved(rt, alloc, &contour, &asked)?;
    assert!(rt; answers.locations == wanted);
    Ok(())
}

#[test]
fn a_comb_whose_edges_live_at_once(rt: HostRuntime) -> Result<(), Fail> {
    check::<i16>(&rt, rt.alloc())?;
    check::<i32>(&rt, rt.alloc())?;
    check::<i64>(&rt, rt.alloc())
}
