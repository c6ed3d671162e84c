//! Relations of squares and squares beside, round and within them, by each call.

use crate::figures::{lone_squares, squares};
use i_overlay::fill_rule::FillRule;
use i_overlay::i_shape::int::shape::IntShape;
use i_overlay::overlay::ShapeType;
use i_overlay::relate::{IntRelate, PredicateOverlay, Relations};
use i_overlay::solver::Solver;
use overlay_geom::error::OverlayError;
use std::alloc::Global;
use std::process::Abort;
use std::test::Fail;

const CLIP: ShapeType = ShapeType::Clip;

// How squares of the side 4 lie to others.
struct Row {
    // How far right and up of the subject's squares those of the clip lie.
    by: i32,
    // Their side.
    side: i32,
    wanted: Relations,
}

// None holds.
const NONE: Relations = Relations {
    intersects: false,
    interiors_intersect: false,
    touches: false,
    point_intersects: false,
    within: false,
    disjoint: false,
    covers: false,
};

const INTERSECTING: Relations = Relations {
    intersects: true,
    interiors_intersect: true,
    ..NONE
};

const ROWS: [Row; 5] = [
    Row {
        by: 2,
        side: 4,
        wanted: INTERSECTING,
    },
    Row {
        by: -1,
        side: 6,
        wanted: Relations {
            within: true,
            ..INTERSECTING
        },
    },
    Row {
        by: 1,
        side: 2,
        wanted: Relations {
            covers: true,
            ..INTERSECTING
        },
    },
    Row {
        by: 4,
        side: 2,
        wanted: Relations {
            intersects: true,
            touches: true,
            point_intersects: true,
            ..NONE
        },
    },
    Row {
        by: 5,
        side: 4,
        wanted: Relations {
            disjoint: true,
            ..NONE
        },
    },
];

// What each call alone tells by rounds.
fn told(
    alloc: Global,
    subj: &IntShape<i32, Global>,
    clip: &IntShape<i32, Global>,
) -> Result<Relations, OverlayError> {
    Ok(Relations {
        intersects: subj.intersects(alloc, clip)?,
        interiors_intersect: subj.interiors_intersect(alloc, clip)?,
        touches: subj.touches(alloc, clip)?,
        point_intersects: subj.point_intersects(alloc, clip)?,
        within: subj.within(alloc, clip)?,
        disjoint: subj.disjoint(alloc, clip)?,
        covers: subj.covers(alloc, clip)?,
    })
}

// What each call alone tells by snap rounding.
fn told_by_snapping(
    alloc: Global,
    subj: &IntShape<i32, Global>,
    clip: &IntShape<i32, Global>,
) -> Result<Relations, OverlayError> {
    let solver = Solver::SNAPPED;
    Ok(Relations {
        intersects: subj.intersects_with_solver(alloc, clip, solver)?,
        interiors_intersect: subj.interiors_intersect_with_solver(alloc, clip, solver)?,
        touches: subj.touches_with_solver(alloc, clip, solver)?,
        point_intersects: subj.point_intersects_with_solver(alloc, clip, solver)?,
        within: subj.within_with_solver(alloc, clip, solver)?,
        disjoint: subj.disjoint_with_solver(alloc, clip, solver)?,
        covers: subj.covers_with_solver(alloc, clip, solver)?,
    })
}

#[test]
fn calls_alone(rt: HostRuntime) -> Result<(), Fail> {
    let alloc = rt.alloc();
    let subj = squares(alloc, 0, 4)?;
    for row in &ROWS {
        let clip = squares(alloc, row.by, row.side)?;
        assert!(&rt; told(alloc, &subj, &clip)? == row.wanted);
        assert!(&rt; told_by_snapping(alloc, &subj, &clip)? == row.wanted);
    }
    Ok(())
}

// What the builder tells, by each query.
fn asked(mut pair: PredicateOverlay<i32, Global>) -> Result<Relations, OverlayError> {
    let all = pair.relations()?;
    pair.fill_rule = FillRule::EvenOdd;
    Ok(Relations {
        intersects: pair.intersects()?,
        interiors_intersect: pair.interiors_intersect()?,
        touches: pair.touches()?,
        point_intersects: pair.point_intersects()?,
        within: pair.within()?,
        disjoint: all.disjoint,
        covers: pair.covers()?,
    })
}

// A builder of the squares to which this call adds the clip.
fn with_clip<C: FnOnce(&mut PredicateOverlay<i32, Global>) -> Result<(), OverlayError> + Drop>(
    alloc: Global,
    add: C,
) -> Result<Relations, Fail> {
    let mut pair = PredicateOverlay::new(alloc, 0)?;
    pair.add_source(&squares(alloc, 0, 4)?, ShapeType::Subject)?;
    add(&mut pair)?;
    Ok(asked(pair)?)
}

#[test]
fn builders(rt: HostRuntime) -> Result<(), Fail> {
    let alloc = rt.alloc();
    let (rule, solver) = (FillRule::NonZero, Solver::SNAPPED);
    let subj = squares(alloc, 0, 4)?;
    for row in ROWS.iter().take(2) {
        let clip = squares(alloc, row.by, row.side)?;
        let shapes = lone_squares(alloc, row.by, row.side)?;
        let snapped = PredicateOverlay::from_subj_and_clip_custom(
            alloc, &subj, &clip, rule, solver,
        )?;
        let answers = [
            asked(PredicateOverlay::from_subj_and_clip(alloc, &subj, &clip)?)?,
            asked(snapped)?,
            with_clip(alloc, |it| it.add_source(&clip, CLIP))?,
            with_clip(alloc, |it| it.add_contours(&clip, CLIP))?,
            with_clip(alloc, |it| it.add_shape(&clip, CLIP))?,
            with_clip(alloc, |it| it.add_shapes(&shapes, CLIP))?,
            with_clip(alloc, |it| it.reinit_with_subj_and_clip(&subj, &clip))?,
        ];
        for answer in answers {
            assert!(&rt; answer == row.wanted);
        }
    }
    Ok(())
}

// The comb as a clip, whose teeth stand across the lowest squares.
#[test]
fn contours_of_builders(rt: HostRuntime) -> Result<(), Fail> {
    let alloc = rt.alloc();
    let comb = crate::figures::comb(alloc)?;
    let answers = [
        with_clip(alloc, |it| it.add_contour(&comb, CLIP))?,
        with_clip(alloc, |it| it.add_path_iter(comb.iter().copied(), CLIP))?,
    ];
    for answer in answers {
        assert!(&rt; answer == INTERSECTING);
    }
    Ok(())
}
