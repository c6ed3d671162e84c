//! Contours that visit no point twice, at each coordinate type and in both output directions.

use crate::rows::{Row, check, check_clockwise, check_ogc, check_ogc_clockwise};
use i_overlay::fill_rule::FillRule;
use i_overlay::overlay_rule::OverlayRule;
use small_points::contours::Points;
use std::test::Fail;

// A hole that touches its outline.
const NOTCH: &[Points<'static>] = &[&[(0, 0), (6, 0), (6, 6), (0, 6)], &[(0, 3), (2, 4), (2, 2)]];

// Two holes that touch in a corner.
const CORNERS: &[Points<'static>] = &[
    &[(0, 0), (10, 0), (10, 10), (0, 10)],
    &[(2, 2), (2, 4), (4, 4), (4, 2)],
    &[(4, 4), (4, 6), (6, 6), (6, 4)],
];

// An island that touches the hole round it.
const ISLAND: &[Points<'static>] = &[
    &[(0, 0), (10, 0), (10, 10), (0, 10)],
    &[(2, 2), (2, 8), (8, 8), (8, 2)],
    &[(2, 5), (4, 4), (4, 6)],
];

// The outline, and the hole by itself.
const NOTCH_CUT: Row<'static> = Row {
    subj: NOTCH,
    clip: &[],
    rule: OverlayRule::Subject,
    fill: FillRule::EvenOdd,
    wanted: &[&[&[(0, 0), (6, 0), (6, 6), (0, 6)], &[(0, 3), (2, 4), (2, 2)]]],
};

// The notched square, clockwise.
const NOTCH_CUT_CLOCKWISE: Row<'static> = Row {
    subj: NOTCH,
    clip: &[],
    rule: OverlayRule::Subject,
    fill: FillRule::EvenOdd,
    wanted: &[&[&[(0, 0), (0, 6), (6, 6), (6, 0)], &[(2, 4), (0, 3), (2, 2)]]],
};

// One shape with both holes.
const BOTH_CORNERS: Row<'static> = Row {
    subj: CORNERS,
    clip: &[],
    rule: OverlayRule::Subject,
    fill: FillRule::EvenOdd,
    wanted: &[&[
        &[(0, 10), (0, 0), (10, 0), (10, 10)],
        &[(2, 2), (2, 4), (4, 4), (4, 2)],
        &[(4, 4), (4, 6), (6, 6), (6, 4)],
    ]],
};

// Both corners, clockwise.
const BOTH_CORNERS_CLOCKWISE: Row<'static> = Row {
    subj: CORNERS,
    clip: &[],
    rule: OverlayRule::Subject,
    fill: FillRule::EvenOdd,
    wanted: &[&[
        &[(0, 0), (0, 10), (10, 10), (10, 0)],
        &[(2, 4), (2, 2), (4, 2), (4, 4)],
        &[(4, 6), (4, 4), (6, 4), (6, 6)],
    ]],
};

// Without groups the island is a part of the hole.
const ISLAND_JOINED: Row<'static> = Row {
    subj: ISLAND,
    clip: &[],
    rule: OverlayRule::Subject,
    fill: FillRule::EvenOdd,
    wanted: &[&[
        &[(0, 10), (0, 0), (10, 0), (10, 10)],
        &[
            (2, 2),
            (2, 5),
            (4, 4),
            (4, 6),
            (2, 5),
            (2, 8),
            (8, 8),
            (8, 2),
        ],
    ]],
};

// The joined island, clockwise.
const ISLAND_JOINED_CLOCKWISE: Row<'static> = Row {
    subj: ISLAND,
    clip: &[],
    rule: OverlayRule::Subject,
    fill: FillRule::EvenOdd,
    wanted: &[&[
        &[(0, 0), (0, 10), (10, 10), (10, 0)],
        &[
            (2, 5),
            (2, 2),
            (8, 2),
            (8, 8),
            (2, 8),
            (2, 5),
            (4, 6),
            (4, 4),
        ],
    ]],
};

// With groups it is a shape of its own.
const ISLAND_CUT: Row<'static> = Row {
    subj: ISLAND,
    clip: &[],
    rule: OverlayRule::Subject,
    fill: FillRule::EvenOdd,
    wanted: &[
        &[
            &[(0, 10), (0, 0), (10, 0), (10, 10)],
            &[(2, 2), (2, 8), (8, 8), (8, 2)],
        ],
        &[&[(4, 6), (2, 5), (4, 4)]],
    ],
};

// The island cut off, clockwise.
const ISLAND_CUT_CLOCKWISE: Row<'static> = Row {
    subj: ISLAND,
    clip: &[],
    rule: OverlayRule::Subject,
    fill: FillRule::EvenOdd,
    wanted: &[
        &[
            &[(0, 0), (0, 10), (10, 10), (10, 0)],
            &[(2, 2), (8, 2), (8, 8), (2, 8)],
        ],
        &[&[(2, 5), (4, 6), (4, 4)]],
    ],
};

#[test]
fn groups_at_i16(rt: HostRuntime) -> Result<(), Fail> {
    check_ogc::<i16>(&rt, rt.alloc(), &NOTCH_CUT)?;
    check_ogc_clockwise::<i16>(&rt, rt.alloc(), &NOTCH_CUT_CLOCKWISE)?;
    check_ogc::<i16>(&rt, rt.alloc(), &BOTH_CORNERS)?;
    check_ogc_clockwise::<i16>(&rt, rt.alloc(), &BOTH_CORNERS_CLOCKWISE)?;
    check_ogc::<i16>(&rt, rt.alloc(), &ISLAND_CUT)?;
    check_ogc_clockwise::<i16>(&rt, rt.alloc(), &ISLAND_CUT_CLOCKWISE)
}

#[test]
fn no_groups_at_i16(rt: HostRuntime) -> Result<(), Fail> {
    check::<i16>(&rt, rt.alloc(), &BOTH_CORNERS)?;
    check_clockwise::<i16>(&rt, rt.alloc(), &BOTH_CORNERS_CLOCKWISE)?;
    check::<i16>(&rt, rt.alloc(), &ISLAND_JOINED)?;
    check_clockwise::<i16>(&rt, rt.alloc(), &ISLAND_JOINED_CLOCKWISE)
}

#[test]
fn groups_at_i32(rt: HostRuntime) -> Result<(), Fail> {
    check_ogc::<i32>(&rt, rt.alloc(), &NOTCH_CUT)?;
    check_ogc_clockwise::<i32>(&rt, rt.alloc(), &NOTCH_CUT_CLOCKWISE)?;
    check_ogc::<i32>(&rt, rt.alloc(), &BOTH_CORNERS)?;
    check_ogc_clockwise::<i32>(&rt, rt.alloc(), &BOTH_CORNERS_CLOCKWISE)?;
    check_ogc::<i32>(&rt, rt.alloc(), &ISLAND_CUT)?;
    check_ogc_clockwise::<i32>(&rt, rt.alloc(), &ISLAND_CUT_CLOCKWISE)
}

#[test]
fn no_groups_at_i32(rt: HostRuntime) -> Result<(), Fail> {
    check::<i32>(&rt, rt.alloc(), &BOTH_CORNERS)?;
    check_clockwise::<i32>(&rt, rt.alloc(), &BOTH_CORNERS_CLOCKWISE)?;
    check::<i32>(&rt, rt.alloc(), &ISLAND_JOINED)?;
    check_clockwise::<i32>(&rt, rt.alloc(), &ISLAND_JOINED_CLOCKWISE)
}

#[test]
fn groups_at_i64(rt: HostRuntime) -> Result<(), Fail> {
    check_ogc::<i64>(&rt, rt.alloc(), &NOTCH_CUT)?;
    check_ogc_clockwise::<i64>(&rt, rt.alloc(), &NOTCH_CUT_CLOCKWISE)?;
    check_ogc::<i64>(&rt, rt.alloc(), &BOTH_CORNERS)?;
    check_ogc_clockwise::<i64>(&rt, rt.alloc(), &BOTH_CORNERS_CLOCKWISE)?;
    check_ogc::<i64>(&rt, rt.alloc(), &ISLAND_CUT)?;
    check_ogc_clockwise::<i64>(&rt, rt.alloc(), &ISLAND_CUT_CLOCKWISE)
}

#[test]
fn no_groups_at_i64(rt: HostRuntime) -> Result<(), Fail> {
    check::<i64>(&rt, rt.alloc(), &BOTH_CORNERS)?;
    check_clockwise::<i64>(&rt, rt.alloc(), &BOTH_CORNERS_CLOCKWISE)?;
    check::<i64>(&rt, rt.alloc(), &ISLAND_JOINED)?;
    check_clockwise::<i64>(&rt, rt.alloc(), &ISLAND_JOINED_CLOCKWISE)
}
