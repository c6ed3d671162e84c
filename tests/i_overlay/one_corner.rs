//! Two holes that touch their outline, and each other, in one corner, beside other shapes, at each coordinate type.

use crate::rows::{Row, check_clockwise, check_ogc, check_ogc_clockwise, check_wide};
use i_overlay::fill_rule::FillRule;
use i_overlay::overlay_rule::OverlayRule;
use small_points::contours::Points;
use std::test::Fail;

// A square, the outline with its holes, and a bar below it.
const GIVEN: &[Points<'static>] = &[
    &[(-1, 2), (-1, 4), (-3, 4), (-3, 2)],
    &[(6, 0), (6, 6), (3, 6), (2, 3), (3, 0)],
    &[(0, -1), (0, -2), (10, -2), (10, -1)],
    &[(2, 3), (4, 4), (4, 3)],
    &[(2, 3), (4, 2), (3, 1)],
];

// The row of these shapes.
fn of_shapes<'a>(wanted: &'a [&'a [Points<'a>]]) -> Row<'a> {
    Row {
        subj: GIVEN,
        clip: &[],
        rule: OverlayRule::Subject,
        fill: FillRule::EvenOdd,
        wanted,
    }
}

// With groups both holes belong to the outline.
const CUT: &[&[Points<'static>]] = &[
    &[&[(-3, 4), (-3, 2), (-1, 2), (-1, 4)]],
    &[&[(0, -1), (0, -2), (10, -2), (10, -1)]],
    &[
        &[(3, 6), (2, 3), (3, 0), (6, 0), (6, 6)],
        &[(2, 3), (4, 4), (4, 3)],
        &[(2, 3), (4, 2), (3, 1)],
    ],
];

const CUT_CLOCKWISE: &[&[Points<'static>]] = &[
    &[&[(-3, 2), (-3, 4), (-1, 4), (-1, 2)]],
    &[&[(0, -2), (0, -1), (10, -1), (10, -2)]],
    &[
        &[(2, 3), (3, 6), (6, 6), (6, 0), (3, 0)],
        &[(4, 4), (2, 3), (4, 3)],
        &[(4, 2), (2, 3), (3, 1)],
    ],
];

// Without groups one contour passes the corner three times.
const JOINED: &[&[Points<'static>]] = &[
    &[&[(-3, 4), (-3, 2), (-1, 2), (-1, 4)]],
    &[&[(0, -1), (0, -2), (10, -2), (10, -1)]],
    &[&[
        (3, 6),
        (2, 3),
        (4, 4),
        (4, 3),
        (2, 3),
        (4, 2),
        (3, 1),
        (2, 3),
        (3, 0),
        (6, 0),
        (6, 6),
    ]],
];

const JOINED_CLOCKWISE: &[&[Points<'static>]] = &[
    &[&[(-3, 2), (-3, 4), (-1, 4), (-1, 2)]],
    &[&[(0, -2), (0, -1), (10, -1), (10, -2)]],
    &[&[
        (2, 3),
        (3, 6),
        (6, 6),
        (6, 0),
        (3, 0),
        (2, 3),
        (3, 1),
        (4, 2),
        (2, 3),
        (4, 3),
        (4, 4),
    ]],
];

#[test]
fn holes_in_one_corner_with_groups(rt: HostRuntime) -> Result<(), Fail> {
    let (cut, clockwise) = (of_shapes(CUT), of_shapes(CUT_CLOCKWISE));
    check_ogc::<i16>(&rt, rt.alloc(), &cut)?;
    check_ogc::<i32>(&rt, rt.alloc(), &cut)?;
    check_ogc::<i64>(&rt, rt.alloc(), &cut)?;
    check_ogc_clockwise::<i16>(&rt, rt.alloc(), &clockwise)?;
    check_ogc_clockwise::<i32>(&rt, rt.alloc(), &clockwise)?;
    check_ogc_clockwise::<i64>(&rt, rt.alloc(), &clockwise)
}

#[test]
fn holes_in_one_corner_without_groups(rt: HostRuntime) -> Result<(), Fail> {
    let clockwise = of_shapes(JOINED_CLOCKWISE);
    check_wide(&rt, rt.alloc(), &of_shapes(JOINED))?;
    check_clockwise::<i16>(&rt, rt.alloc(), &clockwise)?;
    check_clockwise::<i32>(&rt, rt.alloc(), &clockwise)?;
    check_clockwise::<i64>(&rt, rt.alloc(), &clockwise)
}
