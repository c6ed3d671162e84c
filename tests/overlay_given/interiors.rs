//! Relations of interiors, asked of merged edges, under each rule.

use crate::asked::{APART, CROSSING, WITHIN, assert_told, counter_clockwise};
use std::test::Fail;

// The clip (0, 0), (4, 5), (5, 6) runs clockwise, so positive filling fills nothing of it.
#[test]
fn a_sliver_that_runs_clockwise(rt: HostRuntime) -> Result<(), Fail> {
    let rows = [
        (0, -1, 1, 2, -1, 0),
        (0, -1, 4, 5, 1, 0),
        (0, 0, 4, 5, 0, 1),
        (0, 0, 5, 6, 0, -1),
        (1, 2, 4, 5, -1, 0),
        (4, 5, 5, 6, 0, 1),
    ];
    assert_told(&rt, rt.alloc(), &rows, [CROSSING, CROSSING, APART, APART])
}

// The thin triangle (0, 0), (3, 1), (3, 2) crosses the band (0, 1), (3, 0), (3, 1), (0, 2) at thirds.
#[test]
fn crossings_at_thirds(rt: HostRuntime) -> Result<(), Fail> {
    let rows = [
        (0, 0, 3, 1, 1, 0),
        (0, 0, 3, 2, -1, 0),
        (0, 1, 0, 2, 0, -1),
        (0, 1, 3, 0, 0, 1),
        (0, 2, 3, 1, 0, -1),
        (3, 0, 3, 1, 0, 1),
        (3, 1, 3, 2, 1, 0),
    ];
    assert_told(&rt, rt.alloc(), &rows, counter_clockwise(CROSSING))
}

// Three edges meet in (10 / 3, 0). The subject runs clockwise; of the clip one triangle runs clockwise.
#[test]
fn three_edges_through_a_third(rt: HostRuntime) -> Result<(), Fail> {
    let rows = [
        (0, -7, 0, 1, 0, 1),
        (0, -7, 10, -2, 0, -1),
        (0, -1, 10, -5, -1, 0),
        (0, -1, 10, 2, 1, 0),
        (0, 0, 10, 0, 0, 1),
        (0, 0, 10, 9, 0, -1),
        (0, 1, 10, -2, 0, 1),
        (10, -5, 10, 2, -1, 0),
        (10, 0, 10, 9, 0, 1),
    ];
    assert_told(
        &rt,
        rt.alloc(),
        &rows,
        [CROSSING, CROSSING, APART, CROSSING],
    )
}

// Neither sliver has a whole point inside, and the lower sides lie on one line of slope 3 / 7.
#[test]
fn a_sliver_within_a_sliver(rt: HostRuntime) -> Result<(), Fail> {
    let rows = [
        (-7, -3, 7, 4, 0, -1),
        (-7, -3, 21, 9, 0, 1),
        (0, 0, 7, 3, 1, 0),
        (0, 0, 7, 4, -1, 0),
        (7, 3, 14, 6, 1, 0),
        (7, 4, 14, 6, -1, 0),
        (7, 4, 21, 9, 0, -1),
    ];
    assert_told(&rt, rt.alloc(), &rows, counter_clockwise(WITHIN))
}

// Two squares with a common corner.
#[test]
fn a_square_in_the_corner_of_another(rt: HostRuntime) -> Result<(), Fail> {
    let rows = [
        (0, 0, 0, 4, -1, 0),
        (0, 0, 0, 8, 0, -1),
        (0, 0, 4, 0, 1, 0),
        (0, 0, 8, 0, 0, 1),
        (0, 4, 4, 4, -1, 0),
        (0, 8, 8, 8, 0, -1),
        (4, 0, 4, 4, 1, 0),
        (8, 0, 8, 8, 0, 1),
    ];
    assert_told(&rt, rt.alloc(), &rows, counter_clockwise(WITHIN))
}
