//! Relations of worked rows. Where edges meet in points that are not whole, snap rounding tells otherwise of some.

use crate::asked::{
    ALIKE, APART, CROSSING, IN_POINTS, TOUCHING, WITHIN, assert_told, counter_clockwise,
};
use std::test::Fail;

const SQUARE: [[i16; 2]; 4] = [[0, 0], [4, 0], [4, 4], [0, 4]];

// Squares that run counter-clockwise: Negative fills nothing.
#[test]
fn squares(rt: HostRuntime) -> Result<(), Fail> {
    let alloc = rt.alloc();
    let asked = [
        ([[2, 2], [6, 2], [6, 6], [2, 6]], CROSSING),
        ([[5, 0], [9, 0], [9, 4], [5, 4]], APART),
        ([[4, 1], [6, 1], [6, 3], [4, 3]], TOUCHING),
        ([[4, 4], [6, 4], [6, 6], [4, 6]], IN_POINTS),
        ([[-1, -1], [5, -1], [5, 5], [-1, 5]], WITHIN),
        ([[0, 0], [6, 0], [6, 6], [0, 6]], WITHIN),
        (SQUARE, ALIKE),
    ];
    for (clip, wanted) in asked {
        let wanted = counter_clockwise(wanted);
        assert_told(&rt, alloc, &[&SQUARE], &[&clip], wanted)?;
    }
    Ok(())
}

// The clip runs clockwise, so that Positive fills nothing of it and Negative nothing of the subject. Rounded, their
// borders cross.
#[test]
fn a_sliver_that_runs_clockwise(rt: HostRuntime) -> Result<(), Fail> {
    let subj = [[0, -1], [4, 5], [1, 2]];
    let clip = [[0, 0], [4, 5], [5, 6]];
    let wanted = [CROSSING, CROSSING, APART, APART];
    assert_told(&rt, rt.alloc(), &[&subj], &[&clip], wanted)
}

// The border x + y = 1 of the clip crosses the border y = 2x of the subject in (1/3, 2/3). Their common part is the
// triangle of this point, (0, 1) and (1/2, 1). The subject runs counter-clockwise, the clip too.
#[test]
fn crossings_at_thirds(rt: HostRuntime) -> Result<(), Fail> {
    let subj = [[0, 0], [1, 2], [0, 2]];
    let clip = [[0, 1], [1, 0], [1, 1]];
    let wanted = counter_clockwise(CROSSING);
    assert_told(&rt, rt.alloc(), &[&subj], &[&clip], wanted)
}

// The lines y = 2x and y = 5x - 1 bound the subject, y = 1 - x and y = 2 - 4x the clip. All cross in (1/3, 2/3). Right
// of it the subject lies above 2/3 and the clip below, left of it the clip lies above and the subject below. Of each
// the right triangle or the left one runs counter-clockwise: the subject's right one and the clip's left one.
#[test]
fn bows_that_meet_in_a_third(rt: HostRuntime) -> Result<(), Fail> {
    let subj = [[0, 0], [1, 2], [1, 4], [0, -1]];
    let clip = [[0, 1], [1, 0], [1, -2], [0, 2]];
    assert_told(&rt, rt.alloc(), &[&subj], &[&clip], [IN_POINTS; 4])
}

// Both slivers have the border from (0, 0) to (5, 2). At x = 3 it lies at 6/5 and the subject below it, at x = 2 it
// lies at 4/5 and the clip above it. Both run counter-clockwise.
#[test]
fn slivers_on_both_sides_of_a_border(rt: HostRuntime) -> Result<(), Fail> {
    let subj = [[0, 0], [3, 1], [5, 2]];
    let clip = [[0, 0], [5, 2], [2, 1]];
    let wanted = counter_clockwise(TOUCHING);
    assert_told(&rt, rt.alloc(), &[&subj], &[&clip], wanted)
}

// The sliver has the border of the triangle from (0, 0) to (5, 2), and (3, 1) lies below it.
#[test]
fn a_sliver_within_a_triangle(rt: HostRuntime) -> Result<(), Fail> {
    let subj = [[0, 0], [3, 1], [5, 2]];
    let clip = [[0, 0], [5, 0], [5, 2]];
    let wanted = counter_clockwise(WITHIN);
    assert_told(&rt, rt.alloc(), &[&subj], &[&clip], wanted)
}

// The border of the subject from (0, 0) to (7, 3) passes 1/7 below (2, 1) and 2/7 above (3, 1).
#[test]
fn gaps_within_half_a_unit(rt: HostRuntime) -> Result<(), Fail> {
    let alloc = rt.alloc();
    let subj = [[0, 0], [7, -5], [7, 3]];
    let apart = [[2, 1], [2, 5], [0, 5]];
    let wanted = [APART; 4];
    assert_told(&rt, alloc, &[&subj], &[&apart], wanted)?;
    let dipping = [[3, 1], [2, 5], [0, 5]];
    let wanted = counter_clockwise(CROSSING);
    assert_told(&rt, alloc, &[&subj], &[&dipping], wanted)
}

// The subject's spike from (4, 0) to (8, 0) fills nothing.
#[test]
fn spikes_fill_nothing(rt: HostRuntime) -> Result<(), Fail> {
    let subj = [[0, 0], [4, 0], [8, 0], [4, 0], [4, 4], [0, 4]];
    let clip = [[6, -1], [7, -1], [7, 1], [6, 1]];
    assert_told(&rt, rt.alloc(), &[&subj], &[&clip], [APART; 4])
}

// The clip lies in the hole of the subject, or fills it, or reaches into the ring. The hole runs clockwise.
#[test]
fn holes(rt: HostRuntime) -> Result<(), Fail> {
    let alloc = rt.alloc();
    let outline = [[0, 0], [9, 0], [9, 9], [0, 9]];
    let hole = [[3, 3], [3, 6], [6, 6], [6, 3]];
    let asked = [
        ([[4, 4], [5, 4], [5, 5], [4, 5]], APART),
        ([[3, 3], [6, 3], [6, 6], [3, 6]], TOUCHING),
        ([[4, 4], [5, 4], [6, 5], [4, 5]], IN_POINTS),
        ([[4, 4], [7, 4], [7, 5], [4, 5]], CROSSING),
    ];
    for (clip, wanted) in asked {
        let wanted = counter_clockwise(wanted);
        assert_told(&rt, alloc, &[&outline, &hole], &[&clip], wanted)?;
    }
    Ok(())
}

// An empty shape lies within nothing and covers nothing.
#[test]
fn empty_shapes(rt: HostRuntime) -> Result<(), Fail> {
    assert_told(&rt, rt.alloc(), &[&SQUARE], &[], [APART; 4])?;
    assert_told(&rt, rt.alloc(), &[], &[], [APART; 4])
}
