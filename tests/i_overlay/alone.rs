//! Each shape by itself: its windings round the whole points of its box, counted from its steps alone.

use crate::rows::{Row, check, check_ogc};
use i_overlay::fill_rule::FillRule;
use i_overlay::overlay_rule::OverlayRule;
use overlay_geom::error::OverlayError;
use overlay_geom::integer::OverlayInt;
use overlay_geom::path::{IntContour, IntShape};
use overlay_geom::point::IntPoint;
use small_points::contours::{Points, shapes_of};
use std::alloc::Global;
use std::test::Fail;

// A point, with room for products.
type Place = (i64, i64);

// The widest box whose points are looked at.
const WIDEST: i64 = 250;

// Four squares, of which each touches two others in a corner.
const FOUR: Row<'static> = Row {
    subj: &[
        &[(2, 0), (4, 0), (4, 2), (2, 2)],
        &[(0, 2), (2, 2), (2, 4), (0, 4)],
        &[(4, 2), (6, 2), (6, 4), (4, 4)],
        &[(2, 4), (4, 4), (4, 6), (2, 6)],
    ],
    clip: &[],
    rule: OverlayRule::Subject,
    fill: FillRule::EvenOdd,
    wanted: &[
        &[&[(0, 4), (0, 2), (2, 2), (2, 4)]],
        &[&[(2, 2), (2, 0), (4, 0), (4, 2)]],
        &[&[(2, 6), (2, 4), (4, 4), (4, 6)]],
        &[&[(4, 4), (4, 2), (6, 2), (6, 4)]],
    ],
};

fn place_of(point: IntPoint<i16>) -> Place {
    (i64::from(point.x), i64::from(point.y))
}

// Above 0 where p lies on the left of the way from a to b.
fn cross(a: Place, b: Place, p: Place) -> i64 {
    (b.0 - a.0) * (p.1 - a.1) - (b.1 - a.1) * (p.0 - a.0)
}

fn is_between(a: i64, b: i64, at: i64) -> bool {
    (a <= at && at <= b) || (b <= at && at <= a)
}

fn is_on(a: Place, b: Place, p: Place) -> bool {
    cross(a, b, p) == 0 && is_between(a.0, b.0, p.0) && is_between(a.1, b.1, p.1)
}

// Winding that a step from a to b adds at p.
fn passing(a: Place, b: Place, p: Place) -> i64 {
    if a.0 <= p.0 && p.0 < b.0 && cross(a, b, p) > 0 {
        1
    } else if b.0 <= p.0 && p.0 < a.0 && cross(b, a, p) > 0 {
        -1
    } else {
        0
    }
}

// The winding of a shape at p; none where p lies on an edge.
fn winding(shape: &[IntContour<i16, Global>], p: Place) -> Option<i64> {
    let mut sum = 0;
    for contour in shape {
        for at in 0..contour.len() {
            let a = place_of(contour[at]);
            let b = place_of(contour[(at + 1) % contour.len()]);
            if is_on(a, b, p) {
                return None;
            }
            sum += passing(a, b, p);
        }
    }
    Some(sum)
}

// The bounding box of the points, one wider on each side; none if it is too wide.
fn box_of(shapes: &[IntShape<i16, Global>]) -> Option<(Place, Place)> {
    let (mut least, mut greatest) = ((0, 0), (0, 0));
    for shape in shapes {
        for contour in shape {
            for point in contour {
                let at = place_of(*point);
                least = (at.0.min(least.0), at.1.min(least.1));
                greatest = (at.0.max(greatest.0), at.1.max(greatest.1));
            }
        }
    }
    if greatest.0 - least.0 > WIDEST || greatest.1 - least.1 > WIDEST {
        return None;
    }
    Some(((least.0 - 1, least.1 - 1), (greatest.0 + 2, greatest.1 + 2)))
}

// Number of shapes that wind round p, each once in the output direction; none if a shape winds otherwise.
fn count_round(shapes: &[IntShape<i16, Global>], once: i64, p: Place) -> Option<usize> {
    let mut count = 0;
    for shape in shapes {
        match winding(shape, p) {
            Some(0) | None => {}
            Some(winding) if winding == once => count += 1,
            Some(_) => return None,
        }
    }
    Some(count)
}

/// Returns whether each shape winds once, in the output direction, or zero times round each whole point off its edges
/// in the box of all. No two of them may wind round one point. A box that is too wide is not tested.
pub(crate) fn are_alone(shapes: &[IntShape<i16, Global>], once: i64) -> bool {
    let Some((least, end)) = box_of(shapes) else {
        return true;
    };
    for x in least.0..end.0 {
        for y in least.1..end.1 {
            match count_round(shapes, once, (x, y)) {
                Some(0) | Some(1) => {}
                _ => return false,
            }
        }
    }
    true
}

/// Tests `are_alone` for shapes by the coordinates of their points. They are the same at each coordinate type, and are
/// looked at with the narrowest alone.
pub(crate) fn rows_are_alone<I: OverlayInt + From<i16>>(
    alloc: Global,
    shapes: &[&[Points<'_>]],
    once: i64,
) -> Result<bool, OverlayError> {
    let is_narrowest = !I::from(i16::MAX).is_in_range();
    Ok(!is_narrowest || are_alone(&shapes_of(alloc, shapes)?, once))
}

#[test]
fn four_squares_are_four_shapes(rt: HostRuntime) -> Result<(), Fail> {
    check::<i16>(&rt, rt.alloc(), &FOUR)?;
    check::<i32>(&rt, rt.alloc(), &FOUR)?;
    check::<i64>(&rt, rt.alloc(), &FOUR)?;
    check_ogc::<i16>(&rt, rt.alloc(), &FOUR)?;
    check_ogc::<i32>(&rt, rt.alloc(), &FOUR)?;
    check_ogc::<i64>(&rt, rt.alloc(), &FOUR)
}

#[test]
fn windings_are_told_apart(rt: HostRuntime) -> Result<(), Fail> {
    let square: Points<'static> = &[(0, 0), (6, 0), (6, 6), (0, 6)];
    let hole: Points<'static> = &[(2, 2), (2, 4), (4, 4), (4, 2)];
    let corner: Points<'static> = &[(3, 3), (8, 3), (8, 8), (3, 8)];
    assert!(rt; rows_are_alone::<i16>(rt.alloc(), &[&[square, hole]], 1)?);
    assert!(rt; !rows_are_alone::<i16>(rt.alloc(), &[&[square, hole]], -1)?);
    assert!(rt; !rows_are_alone::<i16>(rt.alloc(), &[&[square], &[hole]], 1)?);
    assert!(rt; !rows_are_alone::<i16>(rt.alloc(), &[&[square], &[corner]], 1)?);
    Ok(())
}
