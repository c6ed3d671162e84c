//! The edges that become steps of contours, and the direction of these steps, by their filled sides, at each coordinate
//! type.

use crate::rows::{Row, check, check_clockwise, check_edges};
use i_overlay::fill_rule::FillRule;
use i_overlay::overlay_rule::OverlayRule;
use std::test::Fail;

// Edges on y = 0. The first has the subject above (1) and is a step from left to right. The second has both above (5)
// and is not a step. The third has the subject on both sides and the clip above (7), and is a step back.
const DIFFERENCE: Row<'static> = Row {
    subj: &[&[(0, 0), (8, 0), (8, -4), (12, -4), (12, 8), (0, 8)]],
    clip: &[&[(4, 0), (12, 0), (12, 4), (4, 4)]],
    rule: OverlayRule::Difference,
    fill: FillRule::NonZero,
    wanted: &[
        &[&[(0, 8), (0, 0), (4, 0), (4, 4), (12, 4), (12, 8)]],
        &[&[(8, 0), (8, -4), (12, -4), (12, 0)]],
    ],
};

#[test]
fn difference_with_the_side_on_the_left(rt: HostRuntime) -> Result<(), Fail> {
    let fills = [2, 1, 2, 11, 5, 11, 2, 1, 7, 1, 5, 1];
    check_edges::<i16>(&rt, rt.alloc(), &DIFFERENCE, &fills)?;
    check::<i16>(&rt, rt.alloc(), &DIFFERENCE)
}

// Edges on x = 0. The lowest has both on the left (5) and is not a step. The next has the clip on the left (4) and is a
// step back. The last has the subject on the right (2), and is a step upwards.
const EXCLUSIVE: Row<'static> = Row {
    subj: &[
        &[(-4, 0), (0, 0), (0, 4), (-4, 4)],
        &[(0, 10), (4, 10), (4, 14), (0, 14)],
    ],
    clip: &[&[(-4, 0), (0, 0), (0, 8), (-4, 8)]],
    rule: OverlayRule::Xor,
    fill: FillRule::NonZero,
    wanted: &[
        &[&[(-4, 4), (-4, 8), (0, 8), (0, 4)]],
        &[&[(0, 10), (0, 14), (4, 14), (4, 10)]],
    ],
};

#[test]
fn exclusive_with_the_side_on_the_right(rt: HostRuntime) -> Result<(), Fail> {
    let fills = [10, 5, 8, 14, 8, 5, 4, 2, 1, 2, 1];
    check_edges::<i32>(&rt, rt.alloc(), &EXCLUSIVE, &fills)?;
    check_clockwise::<i32>(&rt, rt.alloc(), &EXCLUSIVE)
}

// The edge that rises from (0, 0) has the subject above and the clip below (9), and is not a step. The edge from (8, 0)
// has both above (5), and is a step. At the edge from (16, 0) the subject lies twice; it fills no side and is not a
// step.
const UNION: Row<'static> = Row {
    subj: &[
        &[(0, 0), (4, 1), (4, 5), (0, 4)],
        &[(8, 0), (12, 1), (12, 5), (8, 4)],
        &[(16, 0), (20, 1), (20, 5), (16, 4)],
        &[(16, 0), (20, 1), (20, 5), (16, 4)],
    ],
    clip: &[
        &[(1, -4), (4, -3), (4, 1), (0, 0)],
        &[(8, 0), (12, 1), (12, 5), (8, 4)],
    ],
    rule: OverlayRule::Union,
    fill: FillRule::EvenOdd,
    wanted: &[
        &[&[(0, 4), (0, 0), (1, -4), (4, -3), (4, 5)]],
        &[&[(8, 4), (8, 0), (12, 1), (12, 5)]],
    ],
};

#[test]
fn union_selects_nothing_inside(rt: HostRuntime) -> Result<(), Fail> {
    let fills = [2, 4, 9, 2, 4, 4, 1, 10, 5, 10, 5, 0, 0, 0, 0];
    check_edges::<i64>(&rt, rt.alloc(), &UNION, &fills)?;
    check::<i64>(&rt, rt.alloc(), &UNION)
}
