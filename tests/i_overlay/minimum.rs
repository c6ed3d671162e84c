//! Contours below a minimum area are left out, at each coordinate type.

use crate::rows::{Row, check_minimum};
use i_overlay::fill_rule::FillRule;
use i_overlay::overlay_rule::OverlayRule;
use small_points::contours::Points;
use std::test::Fail;

// The intersection of two squares at a corner: an area of 4.
const CORNER: Row<'static> = Row {
    subj: &[&[(0, 0), (4, 0), (4, 4), (0, 4)]],
    clip: &[&[(2, 2), (6, 2), (6, 6), (2, 6)]],
    rule: OverlayRule::Intersect,
    fill: FillRule::EvenOdd,
    wanted: &[&[&[(2, 4), (2, 2), (4, 2), (4, 4)]]],
};

// The intersection, too small.
const NO_CORNER: Row<'static> = Row {
    subj: &[&[(0, 0), (4, 0), (4, 4), (0, 4)]],
    clip: &[&[(2, 2), (6, 2), (6, 6), (2, 6)]],
    rule: OverlayRule::Intersect,
    fill: FillRule::EvenOdd,
    wanted: &[],
};

// A square of 4.
const SMALL: Row<'static> = Row {
    subj: &[&[(0, 0), (2, 0), (2, 2), (0, 2)]],
    clip: &[],
    rule: OverlayRule::Subject,
    fill: FillRule::NonZero,
    wanted: &[&[&[(0, 2), (0, 0), (2, 0), (2, 2)]]],
};

// The small square, too small.
const NO_SMALL: Row<'static> = Row {
    subj: &[&[(0, 0), (2, 0), (2, 2), (0, 2)]],
    clip: &[],
    rule: OverlayRule::Subject,
    fill: FillRule::NonZero,
    wanted: &[],
};

// A square of 36 with a hole of 4.
const RING: &[Points<'static>] = &[
    &[(0, 0), (6, 0), (6, 6), (0, 6)],
    &[(2, 2), (2, 4), (4, 4), (4, 2)],
];

const OUTLINE: Points<'static> = &[(0, 6), (0, 0), (6, 0), (6, 6)];

const WITH_HOLE: Row<'static> = Row {
    subj: RING,
    clip: &[],
    rule: OverlayRule::Subject,
    fill: FillRule::EvenOdd,
    wanted: &[&[OUTLINE, &[(2, 2), (2, 4), (4, 4), (4, 2)]]],
};

const WITHOUT_HOLE: Row<'static> = Row {
    subj: RING,
    clip: &[],
    rule: OverlayRule::Subject,
    fill: FillRule::EvenOdd,
    wanted: &[&[OUTLINE]],
};

const NO_RING: Row<'static> = Row {
    subj: RING,
    clip: &[],
    rule: OverlayRule::Subject,
    fill: FillRule::EvenOdd,
    wanted: &[],
};

// A large square with a large hole over a small one, and a square beside it.
const TWO_SHAPES: &[Points<'static>] = &[
    &[(0, 0), (20, 0), (20, 20), (0, 20)],
    &[(2, 8), (12, 8), (12, 18), (2, 18)],
    &[(4, 2), (6, 2), (6, 4), (4, 4)],
    &[(30, 0), (40, 0), (40, 10), (30, 10)],
];

const BESIDE: Points<'static> = &[(30, 10), (30, 0), (40, 0), (40, 10)];

const BOTH_HOLES: Row<'static> = Row {
    subj: TWO_SHAPES,
    clip: &[],
    rule: OverlayRule::Subject,
    fill: FillRule::EvenOdd,
    wanted: &[
        &[
            &[(0, 20), (0, 0), (20, 0), (20, 20)],
            &[(2, 8), (2, 18), (12, 18), (12, 8)],
            &[(4, 2), (4, 4), (6, 4), (6, 2)],
        ],
        &[BESIDE],
    ],
};

// The hole next below the large hole is gone; the large hole stays in its shape.
const LARGE_HOLE: Row<'static> = Row {
    subj: TWO_SHAPES,
    clip: &[],
    rule: OverlayRule::Subject,
    fill: FillRule::EvenOdd,
    wanted: &[
        &[
            &[(0, 20), (0, 0), (20, 0), (20, 20)],
            &[(2, 8), (2, 18), (12, 18), (12, 8)],
        ],
        &[BESIDE],
    ],
};

#[test]
fn minimum_at_i16(rt: HostRuntime) -> Result<(), Fail> {
    check_minimum::<i16>(&rt, rt.alloc(), &CORNER, 4)?;
    check_minimum::<i16>(&rt, rt.alloc(), &NO_CORNER, 5)?;
    check_minimum::<i16>(&rt, rt.alloc(), &SMALL, 4)?;
    check_minimum::<i16>(&rt, rt.alloc(), &NO_SMALL, 5)?;
    check_minimum::<i16>(&rt, rt.alloc(), &WITH_HOLE, 4)?;
    check_minimum::<i16>(&rt, rt.alloc(), &WITHOUT_HOLE, 5)?;
    check_minimum::<i16>(&rt, rt.alloc(), &WITHOUT_HOLE, 36)?;
    check_minimum::<i16>(&rt, rt.alloc(), &NO_RING, 37)?;
    check_minimum::<i16>(&rt, rt.alloc(), &BOTH_HOLES, 4)?;
    check_minimum::<i16>(&rt, rt.alloc(), &LARGE_HOLE, 5)
}

#[test]
fn minimum_at_i32(rt: HostRuntime) -> Result<(), Fail> {
    check_minimum::<i32>(&rt, rt.alloc(), &CORNER, 4)?;
    check_minimum::<i32>(&rt, rt.alloc(), &NO_CORNER, 5)?;
    check_minimum::<i32>(&rt, rt.alloc(), &SMALL, 4)?;
    check_minimum::<i32>(&rt, rt.alloc(), &NO_SMALL, 5)?;
    check_minimum::<i32>(&rt, rt.alloc(), &WITH_HOLE, 4)?;
    check_minimum::<i32>(&rt, rt.alloc(), &WITHOUT_HOLE, 5)?;
    check_minimum::<i32>(&rt, rt.alloc(), &WITHOUT_HOLE, 36)?;
    check_minimum::<i32>(&rt, rt.alloc(), &NO_RING, 37)?;
    check_minimum::<i32>(&rt, rt.alloc(), &BOTH_HOLES, 4)?;
    check_minimum::<i32>(&rt, rt.alloc(), &LARGE_HOLE, 5)
}

#[test]
fn minimum_at_i64(rt: HostRuntime) -> Result<(), Fail> {
    check_minimum::<i64>(&rt, rt.alloc(), &CORNER, 4)?;
    check_minimum::<i64>(&rt, rt.alloc(), &NO_CORNER, 5)?;
    check_minimum::<i64>(&rt, rt.alloc(), &SMALL, 4)?;
    check_minimum::<i64>(&rt, rt.alloc(), &NO_SMALL, 5)?;
    check_minimum::<i64>(&rt, rt.alloc(), &WITH_HOLE, 4)?;
    check_minimum::<i64>(&rt, rt.alloc(), &WITHOUT_HOLE, 5)?;
    check_minimum::<i64>(&rt, rt.alloc(), &WITHOUT_HOLE, 36)?;
    check_minimum::<i64>(&rt, rt.alloc(), &NO_RING, 37)?;
    check_minimum::<i64>(&rt, rt.alloc(), &BOTH_HOLES, 4)?;
    check_minimum::<i64>(&rt, rt.alloc(), &LARGE_HOLE, 5)
}
