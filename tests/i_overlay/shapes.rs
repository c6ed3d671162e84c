//! The shapes of overlays, at each coordinate type.

use crate::rows::{Row, check, check_clockwise, check_kept, check_wide};
use i_overlay::fill_rule::FillRule;
use i_overlay::overlay_rule::OverlayRule;
use small_points::contours::Points;
use std::test::Fail;

// Two squares that overlap in a corner.
const LOWER_SQUARE: &[Points<'static>] = &[&[(0, 0), (4, 0), (4, 4), (0, 4)]];

const UPPER_SQUARE: &[Points<'static>] = &[&[(2, 2), (6, 2), (6, 6), (2, 6)]];

// Points that both fill, for either output direction.
const CORNER: Row<'static> = Row {
    subj: LOWER_SQUARE,
    clip: UPPER_SQUARE,
    rule: OverlayRule::Intersect,
    fill: FillRule::EvenOdd,
    wanted: &[&[&[(2, 4), (2, 2), (4, 2), (4, 4)]]],
};

const CLOCKWISE_CORNER: Row<'static> = Row {
    subj: LOWER_SQUARE,
    clip: UPPER_SQUARE,
    rule: OverlayRule::Intersect,
    fill: FillRule::EvenOdd,
    wanted: &[&[&[(2, 2), (2, 4), (4, 4), (4, 2)]]],
};

#[test]
fn corner_at_i16(rt: HostRuntime) -> Result<(), Fail> {
    check::<i16>(&rt, rt.alloc(), &CORNER)?;
    check_clockwise::<i16>(&rt, rt.alloc(), &CLOCKWISE_CORNER)
}

#[test]
fn corner_at_i32(rt: HostRuntime) -> Result<(), Fail> {
    check::<i32>(&rt, rt.alloc(), &CORNER)?;
    check_clockwise::<i32>(&rt, rt.alloc(), &CLOCKWISE_CORNER)
}

#[test]
fn corner_at_i64(rt: HostRuntime) -> Result<(), Fail> {
    check::<i64>(&rt, rt.alloc(), &CORNER)?;
    check_clockwise::<i64>(&rt, rt.alloc(), &CLOCKWISE_CORNER)
}

// A frame and a bar through it: one shape with two holes.
const FRAME_AND_BAR: Row<'static> = Row {
    subj: &[
        &[(1, 0), (4, 0), (4, 5), (1, 5)],
        &[(2, 1), (2, 4), (3, 4), (3, 1)],
    ],
    clip: &[&[(0, 2), (5, 2), (5, 3), (0, 3)]],
    rule: OverlayRule::Union,
    fill: FillRule::EvenOdd,
    wanted: &[&[
        &[
            (0, 3),
            (0, 2),
            (1, 2),
            (1, 0),
            (4, 0),
            (4, 2),
            (5, 2),
            (5, 3),
            (4, 3),
            (4, 5),
            (1, 5),
            (1, 3),
        ],
        &[(2, 1), (2, 2), (3, 2), (3, 1)],
        &[(2, 3), (2, 4), (3, 4), (3, 3)],
    ]],
};

#[test]
fn frame_at_i16(rt: HostRuntime) -> Result<(), Fail> {
    check::<i16>(&rt, rt.alloc(), &FRAME_AND_BAR)
}

#[test]
fn frame_at_i32(rt: HostRuntime) -> Result<(), Fail> {
    check::<i32>(&rt, rt.alloc(), &FRAME_AND_BAR)
}

#[test]
fn frame_at_i64(rt: HostRuntime) -> Result<(), Fail> {
    check::<i64>(&rt, rt.alloc(), &FRAME_AND_BAR)
}

// A contour that crosses itself, and its halves: the left half is wound once, the right half minus once.
const BOW: &[Points<'static>] = &[&[(0, 0), (10, 10), (10, 0), (0, 10)]];

const LEFT_HALF: Points<'static> = &[(0, 10), (0, 0), (5, 5)];

const RIGHT_HALF: Points<'static> = &[(10, 10), (5, 5), (10, 0)];

// The row of a subject alone.
fn of_subject<'a>(
    subj: &'a [Points<'a>],
    fill: FillRule,
    wanted: &'a [&'a [Points<'a>]],
) -> Row<'a> {
    Row {
        subj,
        clip: &[],
        rule: OverlayRule::Subject,
        fill,
        wanted,
    }
}

#[test]
fn bow_under_each_rule(rt: HostRuntime) -> Result<(), Fail> {
    let alloc = rt.alloc();
    let both: [&[Points<'_>]; 2] = [&[LEFT_HALF], &[RIGHT_HALF]];
    check_wide(&rt, alloc, &of_subject(BOW, FillRule::NonZero, &both))?;
    check_wide(
        &rt,
        alloc,
        &of_subject(BOW, FillRule::Positive, &[&[LEFT_HALF]]),
    )?;
    check_wide(
        &rt,
        alloc,
        &of_subject(BOW, FillRule::Negative, &[&[RIGHT_HALF]]),
    )
}

// The lines cross in (30/7, 12/7), which is rounded to (4, 2).
const ROUNDED_CROSSING: Row<'static> = Row {
    subj: &[&[(0, 0), (10, 4), (10, 0), (0, 3)]],
    clip: &[],
    rule: OverlayRule::Subject,
    fill: FillRule::NonZero,
    wanted: &[&[&[(0, 3), (0, 0), (4, 2)]], &[&[(10, 4), (4, 2), (10, 0)]]],
};

#[test]
fn rounded_crossing(rt: HostRuntime) -> Result<(), Fail> {
    check_wide(&rt, rt.alloc(), &ROUNDED_CROSSING)
}

// A square with a hole that touches its left side.
pub(crate) const TOUCHING_HOLE: Row<'static> = Row {
    subj: &[&[(0, 0), (6, 0), (6, 6), (0, 6)], &[(0, 3), (2, 4), (2, 2)]],
    clip: &[],
    rule: OverlayRule::Subject,
    fill: FillRule::EvenOdd,
    wanted: &[&[&[
        (0, 3),
        (0, 0),
        (6, 0),
        (6, 6),
        (0, 6),
        (0, 3),
        (2, 4),
        (2, 2),
    ]]],
};

#[test]
fn hole_that_touches_its_outline(rt: HostRuntime) -> Result<(), Fail> {
    check_wide(&rt, rt.alloc(), &TOUCHING_HOLE)
}

// Two squares that share an edge.
const NEIGHBOURS: &[Points<'static>] = &[
    &[(0, 0), (2, 0), (2, 2), (0, 2)],
    &[(2, 0), (4, 0), (4, 2), (2, 2)],
];

// Their shape, with and without the points that are collinear with their neighbours.
const SIDE_BY_SIDE: Row<'static> = Row {
    subj: NEIGHBOURS,
    clip: &[],
    rule: OverlayRule::Subject,
    fill: FillRule::NonZero,
    wanted: &[&[&[(0, 2), (0, 0), (4, 0), (4, 2)]]],
};

const SIDE_BY_SIDE_KEPT: Row<'static> = Row {
    subj: NEIGHBOURS,
    clip: &[],
    rule: OverlayRule::Subject,
    fill: FillRule::NonZero,
    wanted: &[&[&[(0, 2), (0, 0), (2, 0), (4, 0), (4, 2), (2, 2)]]],
};

#[test]
fn squares_side_by_side(rt: HostRuntime) -> Result<(), Fail> {
    check_wide(&rt, rt.alloc(), &SIDE_BY_SIDE)?;
    check_kept::<i16>(&rt, rt.alloc(), &SIDE_BY_SIDE_KEPT)?;
    check_kept::<i32>(&rt, rt.alloc(), &SIDE_BY_SIDE_KEPT)?;
    check_kept::<i64>(&rt, rt.alloc(), &SIDE_BY_SIDE_KEPT)
}

#[test]
fn no_edges(rt: HostRuntime) -> Result<(), Fail> {
    check_wide(&rt, rt.alloc(), &of_subject(&[], FillRule::NonZero, &[]))
}

const WHOLE_RANGE: Row<'static> = Row {
    subj: &[&[
        (-16383, -16383),
        (16383, -16383),
        (16383, 16383),
        (-16383, 16383),
    ]],
    clip: &[],
    rule: OverlayRule::Subject,
    fill: FillRule::NonZero,
    wanted: &[&[&[
        (-16383, 16383),
        (-16383, -16383),
        (16383, -16383),
        (16383, 16383),
    ]]],
};

#[test]
fn square_over_the_range(rt: HostRuntime) -> Result<(), Fail> {
    check::<i16>(&rt, rt.alloc(), &WHOLE_RANGE)
}

const FRAMES: Row<'static> = Row {
    subj: &[
        &[(0, 0), (6, 0), (6, 6), (0, 6)],
        &[(2, 2), (4, 2), (4, 4), (2, 4)],
        &[(10, 0), (16, 0), (16, 6), (10, 6)],
        &[(12, 2), (14, 2), (14, 4), (12, 4)],
    ],
    clip: &[],
    rule: OverlayRule::Subject,
    fill: FillRule::EvenOdd,
    wanted: &[
        &[
            &[(0, 6), (0, 0), (6, 0), (6, 6)],
            &[(2, 2), (2, 4), (4, 4), (4, 2)],
        ],
        &[
            &[(10, 6), (10, 0), (16, 0), (16, 6)],
            &[(12, 2), (12, 4), (14, 4), (14, 2)],
        ],
    ],
};

#[test]
fn holes_of_two_shapes(rt: HostRuntime) -> Result<(), Fail> {
    check_wide(&rt, rt.alloc(), &FRAMES)
}

// Two holes that touch each other in (3, 3). The first hole is found at (3, 1). The next filled-above edge below it is
// the lower edge of the shape round it, and not an edge of the bar further below. The second hole is found at (3, 3).
// The next filled-above edge below it is the upper edge of the first hole, which begins in that point. So the second
// hole goes to the shape of the first.
const TOUCHING_HOLES: Row<'static> = Row {
    subj: &[
        &[(-1, 2), (-1, 4), (-3, 4), (-3, 2)],
        &[(6, 0), (6, 6), (3, 6), (2, 3), (3, 0)],
        &[(0, -1), (0, -2), (10, -2), (10, -1)],
        &[(3, 3), (4, 4), (4, 3)],
        &[(3, 3), (4, 2), (3, 1)],
    ],
    clip: &[],
    rule: OverlayRule::Subject,
    fill: FillRule::EvenOdd,
    wanted: &[
        &[&[(-3, 4), (-3, 2), (-1, 2), (-1, 4)]],
        &[&[(0, -1), (0, -2), (10, -2), (10, -1)]],
        &[
            &[(3, 6), (2, 3), (3, 0), (6, 0), (6, 6)],
            &[(3, 1), (3, 3), (4, 2)],
            &[(3, 3), (4, 4), (4, 3)],
        ],
    ],
};

#[test]
fn holes_that_touch_one_another(rt: HostRuntime) -> Result<(), Fail> {
    check_wide(&rt, rt.alloc(), &TOUCHING_HOLES)
}
