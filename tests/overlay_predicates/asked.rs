//! Relations asked of builders and of resources.

use overlay_exact::exact_int::ExactInt;
use overlay_geom::error::OverlayError;
use overlay_geom::fill_rule::FillRule;
use overlay_geom::path::IntShape;
use overlay_geom::point::{IntPoint, in_range};
use overlay_predicates::exact_predicates::ExactPredicates;
use overlay_predicates::relate_exact::IntRelateExact;
use overlay_relate::relations::Relations;
use std::alloc::{Allocator, Global};
use std::process::Abort;
use std::test::Fail;

/// The points of contours.
pub(crate) type Contours<'a> = &'a [&'a [[i16; 2]]];

/// Nothing in common.
pub(crate) const APART: Relations = Relations {
    intersects: false,
    interiors_intersect: false,
    touches: false,
    point_intersects: false,
    within: false,
    disjoint: true,
    covers: false,
};

/// Common points of the interiors, and neither within the other.
pub(crate) const CROSSING: Relations = Relations {
    intersects: true,
    interiors_intersect: true,
    disjoint: false,
    ..APART
};

/// The subject within the clip.
pub(crate) const WITHIN: Relations = Relations {
    within: true,
    ..CROSSING
};

/// The clip within the subject.
pub(crate) const COVERING: Relations = Relations {
    covers: true,
    ..CROSSING
};

/// Both alike.
pub(crate) const ALIKE: Relations = Relations {
    covers: true,
    ..WITHIN
};

/// A common border.
pub(crate) const TOUCHING: Relations = Relations {
    intersects: true,
    touches: true,
    disjoint: false,
    ..APART
};

/// Single common points.
pub(crate) const IN_POINTS: Relations = Relations {
    point_intersects: true,
    ..TOUCHING
};

/// The relations under each rule of shapes that run counter-clockwise: Negative fills nothing of them.
pub(crate) fn counter_clockwise(told: Relations) -> [Relations; 4] {
    [told, told, told, APART]
}

/// Returns the points, in range.
pub(crate) fn points<I: ExactInt + From<i16>>(
    rt: &impl Abort,
    alloc: Global,
    coordinates: &[[i16; 2]],
) -> Result<Vec<IntPoint<I>, Global>, Fail> {
    let mut points = Vec::new(alloc);
    for at in coordinates {
        points.push(IntPoint::new(I::from(at[0]), I::from(at[1])))?;
    }
    assert!(rt; in_range(&points));
    Ok(points)
}

/// Returns the contours as a shape, each in range.
pub(crate) fn shape<I: ExactInt + From<i16>>(
    rt: &impl Abort,
    alloc: Global,
    contours: Contours<'_>,
) -> Result<IntShape<I, Global>, Fail> {
    let mut shape = Vec::new(alloc);
    for contour in contours {
        shape.push(points::<I>(rt, alloc, contour)?)?;
    }
    for contour in &shape {
        assert!(rt; in_range(contour));
    }
    Ok(shape)
}

/// Asks each relation by itself.
pub(crate) fn one_by_one<I: ExactInt, A: Allocator + Clone>(
    predicates: &ExactPredicates<I, A>,
) -> Result<Relations, OverlayError> {
    Ok(Relations {
        intersects: predicates.intersects()?,
        interiors_intersect: predicates.interiors_intersect()?,
        touches: predicates.touches()?,
        point_intersects: predicates.point_intersects()?,
        within: predicates.within()?,
        disjoint: predicates.disjoint()?,
        covers: predicates.covers()?,
    })
}

// Asks each relation of two shapes by itself, under EvenOdd. Their contours are in range.
fn of_two<I: ExactInt>(
    rt: &impl Abort,
    alloc: Global,
    subj: &IntShape<I, Global>,
    clip: &IntShape<I, Global>,
) -> Result<Relations, OverlayError> {
    for contour in subj {
        assert!(rt; in_range(contour));
    }
    for contour in clip {
        assert!(rt; in_range(contour));
    }
    Ok(Relations {
        intersects: subj.intersects_exact(alloc, clip)?,
        interiors_intersect: subj.interiors_intersect_exact(alloc, clip)?,
        touches: subj.touches_exact(alloc, clip)?,
        point_intersects: subj.point_intersects_exact(alloc, clip)?,
        within: subj.within_exact(alloc, clip)?,
        disjoint: subj.disjoint_exact(alloc, clip)?,
        covers: subj.covers_exact(alloc, clip)?,
    })
}

// Returns the relations of the two, of a new builder. They are the same one by one, and under EvenOdd in one call.
fn relations<I: ExactInt>(
    rt: &impl Abort,
    alloc: Global,
    subj: &IntShape<I, Global>,
    clip: &IntShape<I, Global>,
    rule: FillRule,
) -> Result<Relations, Fail> {
    for contour in subj {
        assert!(rt; in_range(contour));
    }
    for contour in clip {
        assert!(rt; in_range(contour));
    }
    let predicates = ExactPredicates::from_subj_and_clip_custom(alloc, subj, clip, rule)?;
    let told = predicates.relations()?;
    assert!(rt; one_by_one(&predicates)? == told);
    if rule == FillRule::EvenOdd {
        assert!(rt; subj.exact_relations(alloc, clip)? == told);
        assert!(rt; of_two(rt, alloc, subj, clip)? == told);
    }
    Ok(told)
}

// Returns the relations of the two exchanged.
fn exchanged(told: Relations) -> Relations {
    Relations {
        within: told.covers,
        covers: told.within,
        ..told
    }
}

/// Stops the test unless these are the relations under EvenOdd, NonZero, Positive and Negative, and those of the two
/// exchanged.
pub(crate) fn assert_shapes<I: ExactInt>(
    rt: &impl Abort,
    alloc: Global,
    subj: &IntShape<I, Global>,
    clip: &IntShape<I, Global>,
    wanted: [Relations; 4],
) -> Result<(), Fail> {
    let rules = [
        FillRule::EvenOdd,
        FillRule::NonZero,
        FillRule::Positive,
        FillRule::Negative,
    ];
    for k in 0..4 {
        assert!(rt; relations(rt, alloc, subj, clip, rules[k])? == wanted[k]);
        assert!(rt; relations(rt, alloc, clip, subj, rules[k])? == exchanged(wanted[k]));
    }
    Ok(())
}

// Stops the test unless these are the relations at the coordinate type.
fn assert_at<I: ExactInt + From<i16>>(
    rt: &impl Abort,
    alloc: Global,
    subj: Contours<'_>,
    clip: Contours<'_>,
    wanted: [Relations; 4],
) -> Result<(), Fail> {
    let (subj, clip) = (shape::<I>(rt, alloc, subj)?, shape::<I>(rt, alloc, clip)?);
    assert_shapes(rt, alloc, &subj, &clip, wanted)
}

/// Stops the test unless these are the relations under each rule, at each coordinate type.
pub(crate) fn assert_told(
    rt: &impl Abort,
    alloc: Global,
    subj: Contours<'_>,
    clip: Contours<'_>,
    wanted: [Relations; 4],
) -> Result<(), Fail> {
    assert_at::<i16>(rt, alloc, subj, clip, wanted)?;
    assert_at::<i32>(rt, alloc, subj, clip, wanted)?;
    assert_at::<i64>(rt, alloc, subj, clip, wanted)
}
