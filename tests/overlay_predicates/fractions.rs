//! Relations of worked rows whose edges meet in sevenths and thirds.

use crate::asked::{APART, COVERING, CROSSING, IN_POINTS, assert_told, counter_clockwise};
use std::test::Fail;

// The border y = 3x of the subject and the border y = 2 - 4x of the clip cross in (2/7, 6/7). Their common part is the
// triangle of this point, (0, 0) and (0, 2). Both run counter-clockwise.
#[test]
fn crossings_at_sevenths(rt: HostRuntime) -> Result<(), Fail> {
    let subj = [[0, 0], [1, 3], [0, 3]];
    let clip = [[0, 2], [0, -2], [1, -2]];
    let wanted = counter_clockwise(CROSSING);
    assert_told(&rt, rt.alloc(), &[&subj], &[&clip], wanted)
}

// The lines y = 3x and y = 10x - 2 bound the subject, y = 2 - 4x and y = 4 - 11x the clip. All cross in (2/7, 6/7).
// Right of it the subject lies above 6/7 and the clip below, left of it the clip above and the subject below. The
// subject's right triangle and the clip's left one run counter-clockwise.
#[test]
fn bows_that_meet_in_sevenths(rt: HostRuntime) -> Result<(), Fail> {
    let subj = [[0, 0], [1, 3], [1, 8], [0, -2]];
    let clip = [[0, 2], [1, -2], [1, -7], [0, 4]];
    assert_told(&rt, rt.alloc(), &[&subj], &[&clip], [IN_POINTS; 4])
}

// The lines y = 1 - x and y = 2 - 4x bound the clip. They cross in (1/3, 2/3), on the border y = 2x of the subject. The
// clip's right triangle lies right of that border, and its left one within the subject. The left one runs clockwise.
#[test]
fn three_edges_through_a_third(rt: HostRuntime) -> Result<(), Fail> {
    let alloc = rt.alloc();
    let subj = [[0, 0], [1, 2], [0, 2]];
    let clip = [[0, 2], [1, -2], [1, 0], [0, 1]];
    let wanted = [CROSSING, CROSSING, IN_POINTS, APART];
    assert_told(&rt, alloc, &[&subj], &[&clip], wanted)?;
    let turned = [[0, 1], [1, 0], [1, -2], [0, 2]];
    let wanted = [CROSSING, CROSSING, COVERING, APART];
    assert_told(&rt, alloc, &[&subj], &[&turned], wanted)
}

// Triangles of area 1/2. Their borders cross in (4/3, 2/3) and in (3/2, 1). Both run counter-clockwise.
#[test]
fn slivers_that_cross(rt: HostRuntime) -> Result<(), Fail> {
    let subj = [[0, 0], [2, 1], [1, 1]];
    let clip = [[1, 0], [2, 2], [1, 1]];
    let wanted = counter_clockwise(CROSSING);
    assert_told(&rt, rt.alloc(), &[&subj], &[&clip], wanted)
}

// The subject is the band between y = 8/7 x and y = 8/7 x + 1. The points (1, 2) and (2, 3) lie within it, and (7, 9)
// on its border. The upper border passes 1/7 above (1, 2) and 1/7 below (6, 8).
#[test]
fn slivers_at_a_band(rt: HostRuntime) -> Result<(), Fail> {
    let alloc = rt.alloc();
    let band = [[0, 0], [7, 8], [7, 9], [0, 1]];
    let asked = [
        ([[1, 2], [2, 3], [7, 9]], COVERING),
        ([[1, 2], [2, 4], [1, 3]], CROSSING),
        ([[6, 8], [6, 9], [5, 8]], APART),
    ];
    for (clip, wanted) in asked {
        let wanted = counter_clockwise(wanted);
        assert_told(&rt, alloc, &[&band], &[&clip], wanted)?;
    }
    Ok(())
}
