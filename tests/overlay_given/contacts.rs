//! How two shapes meet, asked of merged edges, under each rule.

use crate::asked::{APART, BESIDE, COVERING, IN_POINTS, assert_told, counter_clockwise};
use std::test::Fail;

// Two bow ties that each cross themselves in (4 / 3, 4 / 3). Each has a lobe of each direction.
#[test]
fn bow_ties_through_a_third(rt: HostRuntime) -> Result<(), Fail> {
    let rows = [
        (0, 0, 0, 2, -1, 0),
        (0, 0, 3, 3, 1, 0),
        (0, 2, 4, 0, -1, 0),
        (0, 4, 2, 0, 0, 1),
        (0, 4, 2, 4, 0, -1),
        (1, 0, 2, 0, 0, -1),
        (1, 0, 2, 4, 0, 1),
        (3, 3, 4, 0, 1, 0),
    ];
    assert_told(&rt, rt.alloc(), &rows, [IN_POINTS; 4])
}

// The clip runs clockwise. It lies below the line of slope 3 / 7 along which it touches the subject.
#[test]
fn triangles_along_a_line(rt: HostRuntime) -> Result<(), Fail> {
    let rows = [
        (0, 0, 0, 3, -1, 0),
        (0, 0, 7, 3, 1, 0),
        (0, 0, 14, 0, 0, -1),
        (0, 0, 14, 6, 0, 1),
        (0, 3, 7, 3, -1, 0),
        (14, 0, 14, 6, 0, -1),
    ];
    assert_told(&rt, rt.alloc(), &rows, [BESIDE, BESIDE, APART, APART])
}

// The clip lies 3 / 7 below the line of slope 3 / 7 on which the subject ends.
#[test]
fn apart_by_less_than_half_a_unit(rt: HostRuntime) -> Result<(), Fail> {
    let rows = [
        (0, 0, 0, 3, -1, 0),
        (0, 0, 7, 3, 1, 0),
        (0, 3, 7, 3, -1, 0),
        (1, 0, 8, 2, 0, 1),
        (1, 0, 8, 3, 0, -1),
        (8, 2, 8, 3, 0, 1),
    ];
    assert_told(&rt, rt.alloc(), &rows, [APART; 4])
}

// The corner (7, 3) of the clip lies within an edge of the subject, whose slope is 3 / 7.
#[test]
fn a_corner_on_an_edge(rt: HostRuntime) -> Result<(), Fail> {
    let rows = [
        (0, 0, 0, 6, -1, 0),
        (0, 0, 14, 6, 1, 0),
        (0, 6, 14, 6, -1, 0),
        (7, 3, 8, 0, 0, 1),
        (7, 3, 9, 0, 0, -1),
        (8, 0, 9, 0, 0, 1),
    ];
    assert_told(&rt, rt.alloc(), &rows, counter_clockwise(IN_POINTS))
}

// An edge of the subject ends in (7, 3), and one of the clip leads on from there along its line.
#[test]
fn edges_of_one_line_that_share_an_end(rt: HostRuntime) -> Result<(), Fail> {
    let rows = [
        (0, 0, 0, 3, -1, 0),
        (0, 0, 7, 3, 1, 0),
        (0, 3, 7, 3, -1, 0),
        (7, 3, 14, 0, 0, 1),
        (7, 3, 14, 6, 0, -1),
        (14, 0, 14, 6, 0, 1),
    ];
    assert_told(&rt, rt.alloc(), &rows, counter_clockwise(IN_POINTS))
}

// The clip lies in the subject, and its corner (7, 3) on the subject's border.
#[test]
fn a_corner_on_the_border_from_inside(rt: HostRuntime) -> Result<(), Fail> {
    let rows = [
        (0, 0, 0, 6, -1, 0),
        (0, 0, 14, 6, 1, 0),
        (0, 6, 14, 6, -1, 0),
        (5, 5, 6, 5, 0, -1),
        (5, 5, 7, 3, 0, 1),
        (6, 5, 7, 3, 0, -1),
    ];
    assert_told(&rt, rt.alloc(), &rows, counter_clockwise(COVERING))
}
