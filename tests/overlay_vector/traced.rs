//! Contours traced as edges with data on worked rows, at each coordinate type.

use crate::colour::Colour;
use crate::shapes::{Row, Way, are_shapes, builder_of};
use overlay_geom::fill_rule::FillRule;
use overlay_geom::integer::OverlayInt;
use overlay_geom::overlay_rule::OverlayRule;
use std::alloc::Global;
use std::process::Abort;
use std::test::Fail;

/// A red and a green square that overlap: edges of both have no colour.
pub(crate) const OVERLAPPING: Row<'static> = Row {
    subj: &[(Colour::Red, &[(0, 0), (4, 0), (4, 4), (0, 4), (0, 0)])],
    clip: &[(Colour::Green, &[(2, 0), (6, 0), (6, 4), (2, 4), (2, 0)])],
    rule: OverlayRule::Union,
    fill: FillRule::NonZero,
    keeps_edges: true,
    wanted: &[&[&[
        ((0, 4), 1, Colour::Red),
        ((0, 0), 1, Colour::Red),
        ((2, 0), 5, Colour::Undefined),
        ((4, 0), 4, Colour::Green),
        ((6, 0), 4, Colour::Green),
        ((6, 4), 4, Colour::Green),
        ((4, 4), 5, Colour::Undefined),
        ((2, 4), 1, Colour::Red),
    ]]],
};

// Three sides of a square and a half of the fourth.
const WITHOUT_HALF: Way<'static> = (Colour::Red, &[(4, 0), (4, 4), (0, 4), (0, 0), (2, 0)]);

/// A half of a side in another colour stays an edge by itself.
pub(crate) const TWO_COLOURS: Row<'static> = Row {
    subj: &[WITHOUT_HALF, (Colour::Green, &[(2, 0), (4, 0)])],
    clip: &[],
    rule: OverlayRule::Subject,
    fill: FillRule::NonZero,
    keeps_edges: false,
    wanted: &[&[&[
        ((0, 0), 1, Colour::Red),
        ((2, 0), 1, Colour::Green),
        ((4, 0), 1, Colour::Red),
        ((4, 4), 1, Colour::Red),
        ((0, 4), 1, Colour::Red),
    ]]],
};

/// One in the same colour is joined with the other half.
pub(crate) const ONE_COLOUR: Row<'static> = Row {
    subj: &[WITHOUT_HALF, (Colour::Red, &[(2, 0), (4, 0)])],
    clip: &[],
    rule: OverlayRule::Subject,
    fill: FillRule::NonZero,
    keeps_edges: false,
    wanted: &[&[&[
        ((0, 0), 1, Colour::Red),
        ((4, 0), 1, Colour::Red),
        ((4, 4), 1, Colour::Red),
        ((0, 4), 1, Colour::Red),
    ]]],
};

/// A green triangle, as a hole in a red triangle, touches its longest side, and is a part of its contour.
pub(crate) const TOUCHING: Row<'static> = Row {
    subj: &[
        (Colour::Red, &[(-5, 0), (0, 0), (0, 5), (-5, 0)]),
        (Colour::Green, &[(-3, 2), (-1, 2), (-1, 1), (-3, 2)]),
    ],
    clip: &[],
    rule: OverlayRule::Subject,
    fill: FillRule::NonZero,
    keeps_edges: true,
    wanted: &[&[&[
        ((-5, 0), 1, Colour::Red),
        ((0, 0), 1, Colour::Red),
        ((0, 5), 1, Colour::Red),
        ((-3, 2), 1, Colour::Green),
        ((-1, 2), 1, Colour::Green),
        ((-1, 1), 1, Colour::Green),
        ((-3, 2), 1, Colour::Red),
    ]]],
};

// Two squares side by side: nothing is left of the side between them.
const SIDE_BY_SIDE: &[Way<'static>] = &[
    (Colour::Red, &[(0, 0), (2, 0), (2, 2), (0, 2), (0, 0)]),
    (Colour::Red, &[(2, 0), (4, 0), (4, 2), (2, 2), (2, 0)]),
];

/// Their collinear sides are joined.
pub(crate) const JOINED: Row<'static> = Row {
    subj: SIDE_BY_SIDE,
    clip: &[],
    rule: OverlayRule::Subject,
    fill: FillRule::NonZero,
    keeps_edges: false,
    wanted: &[&[&[
        ((0, 2), 1, Colour::Red),
        ((0, 0), 1, Colour::Red),
        ((4, 0), 1, Colour::Red),
        ((4, 2), 1, Colour::Red),
    ]]],
};

/// Their collinear sides are kept.
pub(crate) const KEPT: Row<'static> = Row {
    subj: SIDE_BY_SIDE,
    clip: &[],
    rule: OverlayRule::Subject,
    fill: FillRule::NonZero,
    keeps_edges: true,
    wanted: &[&[&[
        ((0, 2), 1, Colour::Red),
        ((0, 0), 1, Colour::Red),
        ((2, 0), 1, Colour::Red),
        ((4, 0), 1, Colour::Red),
        ((4, 2), 1, Colour::Red),
        ((2, 2), 1, Colour::Red),
    ]]],
};

/// A green square cut out of a red square: the hole passes it the other way round.
pub(crate) const CUT_OUT: Row<'static> = Row {
    subj: &[(Colour::Red, &[(0, 0), (6, 0), (6, 6), (0, 6), (0, 0)])],
    clip: &[(Colour::Green, &[(2, 2), (4, 2), (4, 4), (2, 4), (2, 2)])],
    rule: OverlayRule::Difference,
    fill: FillRule::NonZero,
    keeps_edges: false,
    wanted: &[&[
        &[
            ((0, 6), 1, Colour::Red),
            ((0, 0), 1, Colour::Red),
            ((6, 0), 1, Colour::Red),
            ((6, 6), 1, Colour::Red),
        ],
        &[
            ((2, 2), 11, Colour::Green),
            ((2, 4), 11, Colour::Green),
            ((4, 4), 11, Colour::Green),
            ((4, 2), 11, Colour::Green),
        ],
    ]],
};

/// Two squares, each with a hole of its own.
pub(crate) const HOLES: Row<'static> = Row {
    subj: &[
        (Colour::Red, &[(0, 0), (6, 0), (6, 6), (0, 6), (0, 0)]),
        (Colour::Green, &[(2, 2), (4, 2), (4, 4), (2, 4), (2, 2)]),
        (
            Colour::Green,
            &[(10, 0), (16, 0), (16, 6), (10, 6), (10, 0)],
        ),
        (Colour::Red, &[(12, 2), (14, 2), (14, 4), (12, 4), (12, 2)]),
    ],
    clip: &[],
    rule: OverlayRule::Subject,
    fill: FillRule::EvenOdd,
    keeps_edges: false,
    wanted: &[
        &[
            &[
                ((0, 6), 1, Colour::Red),
                ((0, 0), 1, Colour::Red),
                ((6, 0), 1, Colour::Red),
                ((6, 6), 1, Colour::Red),
            ],
            &[
                ((2, 2), 1, Colour::Green),
                ((2, 4), 1, Colour::Green),
                ((4, 4), 1, Colour::Green),
                ((4, 2), 1, Colour::Green),
            ],
        ],
        &[
            &[
                ((10, 6), 1, Colour::Green),
                ((10, 0), 1, Colour::Green),
                ((16, 0), 1, Colour::Green),
                ((16, 6), 1, Colour::Green),
            ],
            &[
                ((12, 2), 1, Colour::Red),
                ((12, 4), 1, Colour::Red),
                ((14, 4), 1, Colour::Red),
                ((14, 2), 1, Colour::Red),
            ],
        ],
    ],
};

// Tests whether a builder with the row's edges answers its shapes.
fn holds<I: OverlayInt + PartialEq + From<i16>>(
    rt: &impl Abort,
    alloc: Global,
    row: &Row<'_>,
) -> Result<bool, Fail> {
    let mut overlay = builder_of::<I>(rt, alloc, row)?;
    assert!(rt; overlay.is_balanced());
    let shapes = overlay.build_vector_shapes(row.rule, row.fill)?;
    Ok(are_shapes::<I>(alloc, &shapes, row.wanted)?)
}

// All rows, at a coordinate type.
fn rows<I: OverlayInt + PartialEq + From<i16>>(rt: &impl Abort, alloc: Global) -> Result<(), Fail> {
    assert!(rt; holds::<I>(rt, alloc, &OVERLAPPING)?);
    assert!(rt; holds::<I>(rt, alloc, &TWO_COLOURS)?);
    assert!(rt; holds::<I>(rt, alloc, &ONE_COLOUR)?);
    assert!(rt; holds::<I>(rt, alloc, &TOUCHING)?);
    assert!(rt; holds::<I>(rt, alloc, &JOINED)?);
    assert!(rt; holds::<I>(rt, alloc, &KEPT)?);
    assert!(rt; holds::<I>(rt, alloc, &CUT_OUT)?);
    assert!(rt; holds::<I>(rt, alloc, &HOLES)?);
    Ok(())
}

#[test]
fn contours_traced(rt: HostRuntime) -> Result<(), Fail> {
    rows::<i16>(&rt, rt.alloc())?;
    rows::<i32>(&rt, rt.alloc())?;
    rows::<i64>(&rt, rt.alloc())
}
