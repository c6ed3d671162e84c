//! A builder whose query was refused memory, and the answer once it is cleared, at each coordinate type.

use crate::builders::{add, is_refused};
use crate::squares::square;
use i_overlay::fill_rule::FillRule;
use i_overlay::overlay::{Overlay, ShapeType};
use i_overlay::overlay_rule::OverlayRule;
use overlay_geom::error::OverlayError;
use overlay_geom::integer::OverlayInt;
use overlay_geom::point::IntPoint;
use refusing_alloc::refusing::Refusing;
use std::alloc::Global;
use std::process::Abort;
use std::test::Fail;

// More requests than a call makes.
const PLENTY: u64 = 10_000;

// A builder whose memory may be refused.
type Refusable<'a, I> = Overlay<I, &'a Refusing<Global>>;

// Adds two squares that overlap in a corner.
fn add_squares<I: OverlayInt + From<i16>>(
    rt: &impl Abort,
    overlay: &mut Refusable<'_, I>,
) -> Result<(), OverlayError> {
    let [zero, two, four, six] = [I::from(0), I::from(2), I::from(4), I::from(6)];
    add(rt, overlay, &square(zero, four), ShapeType::Subject)?;
    add(rt, overlay, &square(two, six), ShapeType::Clip)
}

// Asks for their common part: whether the answer is the square from 2 to 4.
fn has_corner<I: OverlayInt + PartialEq + From<i16>>(
    overlay: &mut Refusable<'_, I>,
) -> Result<bool, OverlayError> {
    let shapes = overlay.overlay(OverlayRule::Intersect, FillRule::EvenOdd)?;
    let (two, four) = (I::from(2), I::from(4));
    let [low, right, high, left] = square(two, four);
    let wanted: [IntPoint<I>; 4] = [left, low, right, high];
    Ok(shapes.len() == 1 && shapes[0].len() == 1 && shapes[0][0].as_slice() == wanted.as_slice())
}

// After each refused growth the builder has failed, and it answers once it is cleared.
fn check<I: OverlayInt + PartialEq + From<i16>>(
    rt: &impl Abort,
    alloc: Global,
) -> Result<(), Fail> {
    let memory = Refusing::new(alloc, PLENTY);
    for granted in 0..PLENTY {
        let mut overlay = Refusable::<I>::new(&memory, 8)?;
        add_squares(rt, &mut overlay)?;
        memory.grant(granted);
        let first = has_corner(&mut overlay);
        memory.grant(PLENTY);
        if let Ok(is_corner) = first {
            assert!(rt; is_corner && granted > 0);
            return Ok(());
        }
        assert!(rt; first == Err(OverlayError::Memory));
        assert!(rt; has_corner(&mut overlay) == Err(OverlayError::Failed));
        assert!(rt; is_refused(add_squares(rt, &mut overlay), OverlayError::Failed));
        overlay.clear();
        add_squares(rt, &mut overlay)?;
        assert!(rt; has_corner(&mut overlay) == Ok(true));
    }
    assert!(rt; false, "never answered");
    Ok(())
}

#[test]
fn a_builder_that_was_refused_memory_answers_once_it_is_cleared(
    rt: HostRuntime,
) -> Result<(), Fail> {
    check::<i16>(&rt, rt.alloc())?;
    check::<i32>(&rt, rt.alloc())?;
    check::<i64>(&rt, rt.alloc())
}
