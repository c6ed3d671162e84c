//! Forty triangles round one corner: many steps leave it, and each triangle is a contour, or all of them are one.

use overlay_geom::number::IntNumber;
use overlay_geom::options::ContourDirection;
use overlay_geom::point::IntPoint;
use overlay_walk::contour_cut::cut_into_contours;
use overlay_walk::hand::{Hand, HandRule};
use overlay_walk::open_steps::OpenSteps;
use overlay_walk::step::Step;
use std::alloc::{AllocError, Global};
use std::process::Abort;
use std::test::Fail;

const TRIANGLES: i16 = 40;

// The steps round the triangles, counterclockwise: from (0, 0) to (100, 2k) and (100, 2k + 1), for each k from -20 on.
fn steps_round<I: IntNumber + From<i16>>(
    alloc: Global,
) -> Result<OpenSteps<I, Global>, AllocError> {
    let corner = IntPoint::new(I::from(0), I::from(0));
    let mut steps = Vec::new(alloc);
    for number in 0..TRIANGLES {
        let low = IntPoint::new(I::from(100), I::from(2 * number - TRIANGLES));
        let high = IntPoint::new(I::from(100), I::from(2 * number - TRIANGLES + 1));
        for (from, to) in [(corner, low), (low, high), (high, corner)] {
            let edge = steps.len();
            steps.push(Step { from, to, edge })?;
        }
    }
    OpenSteps::new(steps)
}

// Checks that the cut by the rule has as many walks as told, of as many steps each.
fn check_cut<I: IntNumber + From<i16>>(
    rt: &impl Abort,
    alloc: Global,
    rule: HandRule,
    walks: usize,
    steps: usize,
) -> Result<(), AllocError> {
    let mut open = steps_round::<I>(alloc)?;
    let contours = cut_into_contours(alloc, &mut open, rule)?;
    assert!(rt; contours.len() == walks);
    assert!(rt; contours.iter().all(|walk| walk.len() == steps));
    assert!(rt; open.start().is_none());
    Ok(())
}

// The left hand turns clockwise from the way back, to the triangle's own first step; the right hand to the next one.
fn check<I: IntNumber + From<i16>>(rt: &impl Abort, alloc: Global) -> Result<(), AllocError> {
    check_cut::<I>(rt, alloc, HandRule::Always(Hand::Left), 40, 3)?;
    check_cut::<I>(rt, alloc, HandRule::Always(Hand::Right), 1, 120)?;
    let filled_left = HandRule::OutlineOrHole(ContourDirection::CounterClockwise);
    check_cut::<I>(rt, alloc, filled_left, 40, 3)
}

#[test]
fn fans_at_i16(rt: HostRuntime) -> Result<(), Fail> {
    Ok(check::<i16>(&rt, rt.alloc())?)
}

#[test]
fn fans_at_i32(rt: HostRuntime) -> Result<(), Fail> {
    Ok(check::<i32>(&rt, rt.alloc())?)
}

#[test]
fn fans_at_i64(rt: HostRuntime) -> Result<(), Fail> {
    Ok(check::<i64>(&rt, rt.alloc())?)
}
