//! A comb with 2,100 edges that are filled above, over one x, below a square with a hole. Two shapes are few, so the
//! live edges begin in a list, which turns into a tree.

use i_overlay::fill_rule::FillRule;
use i_overlay::overlay::{Overlay, ShapeType};
use i_overlay::overlay_rule::OverlayRule;
use overlay_geom::error::OverlayError;
use overlay_geom::integer::OverlayInt;
use overlay_geom::path::IntContour;
use small_points::contours::{assert_in_range, contour_of, point_of};
use std::alloc::Global;
use std::process::Abort;
use std::test::Fail;

// Number of edges along the teeth, of which each second one is filled above.
const TEETH: i16 = 4200;

// Teeth that reach from 0 to 10, one above the other, and their back.
fn comb<I: OverlayInt + From<i16>>(alloc: Global) -> Result<IntContour<I, Global>, OverlayError> {
    let mut contour = Vec::new(alloc);
    for i in 0..TEETH + 1 {
        contour.push(point_of((10 * (i % 2), 2 * i)))?;
    }
    contour.push(point_of((-10, 2 * TEETH)))?;
    contour.push(point_of((-10, 0)))?;
    Ok(contour)
}

fn check<I: OverlayInt + PartialEq + From<i16>>(
    rt: &impl Abort,
    alloc: Global,
) -> Result<(), OverlayError> {
    let (low, comb) = (2 * TEETH + 10, comb::<I>(alloc)?);
    // as they come out
    let outer = [(2, low + 7), (2, low), (9, low), (9, low + 7)];
    let hole = [(4, low + 2), (4, low + 4), (6, low + 4), (6, low + 2)];
    let (outer, hole) = (
        contour_of::<I>(alloc, &outer)?,
        contour_of::<I>(alloc, &hole)?,
    );
    let mut overlay = Overlay::new(alloc, 0)?;
    for contour in [&comb, &outer, &hole] {
        assert_in_range(rt, contour);
        overlay.add_contour(contour, ShapeType::Subject)?;
    }
    let shapes = overlay.overlay(OverlayRule::Subject, FillRule::EvenOdd)?;
    assert!(rt; shapes.len() == 2 && shapes[0].len() == 1 && shapes[1].len() == 2);
    assert!(rt; shapes[0][0].len() == comb.len());
    assert!(rt; shapes[1][0] == outer && shapes[1][1] == hole);
    Ok(())
}

#[test]
fn a_comb_whose_edges_live_at_once(rt: HostRuntime) -> Result<(), Fail> {
    each_wide!(rt, check)
}
