//! The steps round a triangle, walked and cut into contours, at each coordinate type.

use overlay_geom::error::OverlayError;
use overlay_geom::number::IntNumber;
use overlay_geom::options::ContourDirection;
use overlay_geom::point::IntPoint;
use overlay_walk::contour_cut::cut_into_contours;
use overlay_walk::hand::{Hand, HandRule};
use overlay_walk::open_steps::OpenSteps;
use overlay_walk::step::Step;
use std::alloc::Global;
use std::process::Abort;
use std::test::Fail;

// The steps round the triangle (0, 0), (4, 0), (0, 4), counterclockwise, and their numbers.
fn steps_round<I: IntNumber>(
    alloc: Global,
    zero: I,
    four: I,
) -> Result<Vec<Step<I>, Global>, OverlayError> {
    let corner = IntPoint::new(zero, zero);
    let right = IntPoint::new(four, zero);
    let top = IntPoint::new(zero, four);
    let round = [
        Step {
            from: corner,
            to: right,
            edge: 1,
        },
        Step {
            from: right,
            to: top,
            edge: 2,
        },
        Step {
            from: top,
            to: corner,
            edge: 3,
        },
    ];
    Ok(Vec::from_array(alloc, round)?)
}

// These steps, none of them taken.
fn open_triangle<I: IntNumber>(
    alloc: Global,
    zero: I,
    four: I,
) -> Result<OpenSteps<I, Global>, OverlayError> {
    let steps = steps_round(alloc, zero, four)?;
    Ok(OpenSteps::new(steps)?)
}

// Returns whether these are the numbers of the steps, in order.
fn has_numbers<I: IntNumber>(walk: &[Step<I>], numbers: &[usize]) -> bool {
    walk.len() == numbers.len() && walk.iter().zip(numbers.iter()).all(|(s, n)| s.edge == *n)
}

// A walk by the hand begins along the left edge, the top at the leftmost lowest point, and takes all steps.
fn check_walk<I: IntNumber>(
    rt: &impl Abort,
    alloc: Global,
    zero: I,
    four: I,
    hand: Hand,
) -> Result<(), Fail> {
    let mut steps = open_triangle(alloc, zero, four)?;
    let start = steps.start().expect(rt, "steps are left");
    assert!(rt; start.edge == 3);
    // (the room that is lent may hold steps, which are lost)
    let mut room = Vec::new(alloc);
    room.push(start)?;
    let walk = steps.walk(&mut room, start, hand)?;
    assert!(rt; has_numbers(&walk, &[3, 1, 2]));
    assert!(rt; steps.start().is_none());
    Ok(())
}

// Checks that the single walk of the cut by the rule does so too.
fn check_cut<I: IntNumber>(
    rt: &impl Abort,
    alloc: Global,
    zero: I,
    four: I,
    rule: HandRule,
) -> Result<(), Fail> {
    let mut steps = open_triangle(alloc, zero, four)?;
    let contours = cut_into_contours(alloc, &mut steps, rule)?;
    assert!(rt; contours.len() == 1);
    assert!(rt; has_numbers(&contours[0], &[3, 1, 2]));
    assert!(rt; steps.start().is_none());
    Ok(())
}

// By either hand, and by each rule.
fn check_triangle<I: IntNumber>(
    rt: &impl Abort,
    alloc: Global,
    zero: I,
    four: I,
) -> Result<(), Fail> {
    for hand in [Hand::Left, Hand::Right] {
        check_walk(rt, alloc, zero, four, hand)?;
    }
    for rule in [
        HandRule::OutlineOrHole(ContourDirection::CounterClockwise),
        HandRule::OutlineOrHole(ContourDirection::Clockwise),
        HandRule::Always(Hand::Left),
        HandRule::Always(Hand::Right),
    ] {
        check_cut(rt, alloc, zero, four, rule)?;
    }
    Ok(())
}

#[test]
fn a_triangle_is_one_contour(rt: HostRuntime) -> Result<(), Fail> {
    check_triangle(&rt, rt.alloc(), 0i16, 4)?;
    check_triangle(&rt, rt.alloc(), 0i32, 4)?;
    check_triangle(&rt, rt.alloc(), 0i64, 4)?;
    Ok(())
}
