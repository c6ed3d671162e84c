//! A builder that refused a query, and what it answers until it is cleared.

use crate::builders::{
    add, check_answered, check_fills, edge_count, is_refused, reinit_with_subj,
    reinit_with_subj_and_clip,
};
use crate::contours::{OF_SQUARE, SQUARE, builder_of};
use i_overlay::fill_rule::FillRule;
use i_overlay::i_float::int::point::IntPoint;
use i_overlay::overlay::{Overlay, ShapeType};
use overlay_geom::error::OverlayError;
use overlay_geom::path::PathRef;
use small_points::contours::{Points, contour_of};
use std::alloc::Global;
use std::cell::Cell;
use std::process::Abort;
use std::test::Fail;

// Contours whose edges cross near many whole points, so that splitting them does not settle.
const NEEDLES: &[Points<'static>] = &[&[(2, 0), (0, 66), (2, -66)], &[(1, 0), (0, 67), (-1, 0)]];

// Checks that the builder does not settle, and answers again once it is cleared.
fn check_unsettled(rt: &impl Abort, overlay: &mut Overlay<i32, Global>, contour: &[IntPoint<i32>]) {
    assert!(rt; edge_count(overlay, FillRule::NonZero) == Err(OverlayError::NotSettled));
    assert!(rt; edge_count(overlay, FillRule::NonZero) == Err(OverlayError::Failed));
    assert!(rt;
        is_refused(
            add(rt, overlay, contour, ShapeType::Subject),
            OverlayError::Failed
        )
    );
    overlay.clear();
    check_answered(rt, add(rt, overlay, contour, ShapeType::Subject));
    check_fills(rt, overlay, FillRule::NonZero, &OF_SQUARE);
}

#[test]
fn a_builder_that_did_not_settle_fails_until_it_is_cleared(rt: HostRuntime) -> Result<(), Fail> {
    let contour = contour_of(rt.alloc(), SQUARE)?;
    let mut overlay = builder_of(&rt, rt.alloc(), NEEDLES, ShapeType::Subject)?;
    check_unsettled(&rt, &mut overlay, &contour);
    Ok(())
}

// An iterator without points that shows whether it was asked for one.
#[derive(Drop)]
struct NoPoints<'a> {
    is_asked: &'a Cell<bool>,
}

impl<'a> Iterator for NoPoints<'a> {
    type Item = IntPoint<i32>;

    fn next(&mut self) -> Option<IntPoint<i32>> {
        self.is_asked.set(true);
        None
    }
}

// Adds such an iterator, and answers whether it was asked, too.
fn add_no_points(overlay: &mut Overlay<i32, Global>) -> (Result<(), OverlayError>, bool) {
    let is_asked = Cell::new(false);
    let points = NoPoints {
        is_asked: &is_asked,
    };
    let added = overlay.add_path_iter(points, ShapeType::Clip);
    (added, is_asked.get())
}

#[test]
fn a_failed_builder_does_not_ask_for_points(rt: HostRuntime) -> Result<(), Fail> {
    let mut overlay = builder_of(&rt, rt.alloc(), NEEDLES, ShapeType::Subject)?;
    assert!(rt; edge_count(&mut overlay, FillRule::NonZero).is_err());
    assert!(rt; add_no_points(&mut overlay) == (Err(OverlayError::Failed), false));
    overlay.clear();
    assert!(rt; add_no_points(&mut overlay) == (Ok(()), true));
    Ok(())
}

#[test]
fn reinit_mends_a_failed_builder(rt: HostRuntime) -> Result<(), Fail> {
    let contour = contour_of::<i32>(rt.alloc(), SQUARE)?;
    let mut overlay = builder_of(&rt, rt.alloc(), NEEDLES, ShapeType::Subject)?;
    assert!(rt; edge_count(&mut overlay, FillRule::NonZero) == Err(OverlayError::NotSettled));
    check_answered(&rt, reinit_with_subj(&rt, &mut overlay, &contour));
    check_fills(&rt, &mut overlay, FillRule::NonZero, &OF_SQUARE);
    let mut overlay = builder_of(&rt, rt.alloc(), NEEDLES, ShapeType::Clip)?;
    assert!(rt; edge_count(&mut overlay, FillRule::NonZero) == Err(OverlayError::NotSettled));
    check_answered(
        &rt,
        reinit_with_subj_and_clip(&rt, &mut overlay, &contour, &PathRef::new(&[])),
    );
    check_fills(&rt, &mut overlay, FillRule::NonZero, &OF_SQUARE);
    Ok(())
}
