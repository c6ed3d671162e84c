//! All relations told at once, at each coordinate type.

use crate::asked::{assert_contour, points};
use overlay_geom::fill_rule::FillRule;
use overlay_geom::integer::OverlayInt;
use overlay_relate::predicate_overlay::{PredicateOverlay, ShapeType};
use overlay_relate::relations::Relations;
use std::alloc::Global;
use std::process::Abort;
use std::test::Fail;

const SQUARE: [[i16; 2]; 4] = [[0, 0], [4, 0], [4, 4], [0, 4]];

// Relations of shapes that are apart: only disjoint.
const APART: Relations = Relations {
    intersects: false,
    interiors_intersect: false,
    touches: false,
    point_intersects: false,
    within: false,
    disjoint: true,
    covers: false,
};

// Relations of shapes whose interiors meet.
const OVER: Relations = Relations {
    intersects: true,
    interiors_intersect: true,
    disjoint: false,
    ..APART
};

// A builder with the square as the subject, and this contour as the clip.
fn builder<I: OverlayInt + From<i16>>(
    rt: &impl Abort,
    alloc: Global,
    clip: &[[i16; 2]],
) -> Result<PredicateOverlay<I, Global>, Fail> {
    let mut overlay = PredicateOverlay::new(alloc, 0)?;
    for (contour, shape_type) in [(&SQUARE[..], ShapeType::Subject), (clip, ShapeType::Clip)] {
        let contour = points::<I>(alloc, contour)?;
        assert_contour(rt, &contour);
        overlay.add_contour(&contour, shape_type)?;
    }
    Ok(overlay)
}

// Tests whether these are told, before a predicate is asked and afterwards.
fn told<I: OverlayInt + From<i16>>(
    rt: &impl Abort,
    alloc: Global,
    clip: &[[i16; 2]],
    wanted: Relations,
) -> Result<bool, Fail> {
    let mut overlay = builder::<I>(rt, alloc, clip)?;
    let first = overlay.relations()?;
    let covers = overlay.covers()?;
    Ok(first == wanted && covers == wanted.covers && overlay.relations()? == wanted)
}

fn rows<I: OverlayInt + From<i16>>(rt: &impl Abort, alloc: Global) -> Result<(), Fail> {
    let touching = Relations {
        intersects: true,
        touches: true,
        disjoint: false,
        ..APART
    };
    let at_a_corner = [[4, 4], [6, 4], [6, 6], [4, 6]];
    let cornered = Relations {
        point_intersects: true,
        ..touching
    };
    assert!(rt; told::<I>(rt, alloc, &at_a_corner, cornered)?);
    let along = [[4, 0], [6, 0], [6, 4], [4, 4]];
    assert!(rt; told::<I>(rt, alloc, &along, touching)?);
    let inside = [[1, 1], [3, 1], [3, 3], [1, 3]];
    let covering = Relations {
        covers: true,
        ..OVER
    };
    assert!(rt; told::<I>(rt, alloc, &inside, covering)?);
    let round = [[-1, -1], [5, -1], [5, 5], [-1, 5]];
    let within = Relations {
        within: true,
        ..OVER
    };
    assert!(rt; told::<I>(rt, alloc, &round, within)?);
    let equal = Relations {
        within: true,
        covers: true,
        ..OVER
    };
    assert!(rt; told::<I>(rt, alloc, &SQUARE, equal)?);
    let over_a_corner = [[2, 2], [6, 2], [6, 6], [2, 6]];
    assert!(rt; told::<I>(rt, alloc, &over_a_corner, OVER)?);
    assert!(rt; told::<I>(rt, alloc, &[], APART)?);
    Ok(())
}

#[test]
fn of_two_squares(rt: HostRuntime) -> Result<(), Fail> {
    rows::<i16>(&rt, rt.alloc())?;
    rows::<i32>(&rt, rt.alloc())?;
    rows::<i64>(&rt, rt.alloc())
}

// A clip with a smaller square inside, which is a hole of it under EvenOdd, and filled too under NonZero.
#[test]
fn the_fill_rule_counts(rt: HostRuntime) -> Result<(), Fail> {
    let mut overlay = builder::<i32>(&rt, rt.alloc(), &SQUARE)?;
    let inside = points::<i32>(rt.alloc(), &[[1, 1], [3, 1], [3, 3], [1, 3]])?;
    assert_contour(&rt, &inside);
    overlay.add_contour(&inside, ShapeType::Clip)?;
    let covering = Relations {
        covers: true,
        ..OVER
    };
    assert!(&rt; overlay.relations()? == covering);
    overlay.fill_rule = FillRule::NonZero;
    let equal = Relations {
        within: true,
        ..covering
    };
    assert!(&rt; overlay.relations()? == equal);
    Ok(())
}
