//! The predicates on worked rows, at each coordinate type.

use crate::again::asked;
use crate::asked::{assert_shape, points};
use overlay_geom::fill_rule::FillRule;
use overlay_geom::integer::OverlayInt;
use overlay_geom::path::IntShape;
use overlay_relate::predicate_overlay::PredicateOverlay;
use std::alloc::Global;
use std::process::Abort;
use std::test::Fail;

const SQUARE: [[i16; 2]; 4] = [[0, 0], [2, 0], [2, 2], [0, 2]];

// The contour as a shape, and none where it has no points.
fn shape<I: OverlayInt + From<i16>>(
    rt: &impl Abort,
    alloc: Global,
    contour: &[[i16; 2]],
) -> Result<IntShape<I, Global>, Fail> {
    let mut shape = Vec::new(alloc);
    if !contour.is_empty() {
        shape.push(points::<I>(alloc, contour)?)?;
    }
    assert_shape(rt, &shape);
    Ok(shape)
}

// Answers of the six predicates, in the order intersects, interiors_intersect, touches, point_intersects, within,
// covers.
fn answers<I: OverlayInt + From<i16>>(
    rt: &impl Abort,
    alloc: Global,
    subj: &[[i16; 2]],
    clip: &[[i16; 2]],
) -> Result<[bool; 6], Fail> {
    let subj = shape::<I>(rt, alloc, subj)?;
    let clip = shape::<I>(rt, alloc, clip)?;
    assert_shape(rt, &subj);
    assert_shape(rt, &clip);
    let mut overlay = PredicateOverlay::from_subj_and_clip(alloc, &subj, &clip)?;
    Ok(asked(&mut overlay)?)
}

fn rows<I: OverlayInt + From<i16>>(rt: &impl Abort, alloc: Global) -> Result<(), Fail> {
    let corner = [[2, 2], [4, 2], [4, 4], [2, 4]];
    assert!(rt;
        answers::<I>(rt, alloc, &SQUARE, &corner)? == [true, false, true, true, false, false]
    );
    let border = [[2, 0], [4, 0], [4, 2], [2, 2]];
    assert!(rt;
        answers::<I>(rt, alloc, &SQUARE, &border)? == [true, false, true, false, false, false]
    );
    assert!(rt;
        answers::<I>(rt, alloc, &SQUARE, &SQUARE)? == [true, true, false, false, true, true]
    );
    let apart = [[9, 9], [10, 9], [10, 10], [9, 10]];
    assert!(rt; answers::<I>(rt, alloc, &SQUARE, &apart)? == [false; 6]);
    let inner = [[1, 1], [3, 1], [3, 3], [1, 3]];
    let outer = [[0, 0], [4, 0], [4, 4], [0, 4]];
    assert!(rt;
        answers::<I>(rt, alloc, &inner, &outer)? == [true, true, false, false, true, false]
    );
    assert!(rt;
        answers::<I>(rt, alloc, &outer, &inner)? == [true, true, false, false, false, true]
    );
    let over_a_corner = [[1, 1], [5, 1], [5, 5], [1, 5]];
    assert!(rt;
        answers::<I>(rt, alloc, &outer, &over_a_corner)? == [true, true, false, false, false, false]
    );
    Ok(())
}

// Answers without edges, with an empty subject, and with an empty clip.
fn empty<I: OverlayInt + From<i16>>(rt: &impl Abort, alloc: Global) -> Result<(), Fail> {
    assert!(rt; answers::<I>(rt, alloc, &[], &[])? == [false; 6]);
    assert!(rt; answers::<I>(rt, alloc, &[], &SQUARE)? == [false; 6]);
    assert!(rt; answers::<I>(rt, alloc, &SQUARE, &[])? == [false; 6]);
    Ok(())
}

#[test]
fn worked_rows(rt: HostRuntime) -> Result<(), Fail> {
    rows::<i16>(&rt, rt.alloc())?;
    rows::<i32>(&rt, rt.alloc())?;
    rows::<i64>(&rt, rt.alloc())
}

#[test]
fn nothing(rt: HostRuntime) -> Result<(), Fail> {
    empty::<i16>(&rt, rt.alloc())?;
    empty::<i32>(&rt, rt.alloc())?;
    empty::<i64>(&rt, rt.alloc())
}

// Two clockwise squares are filled by no positive winding.
#[test]
fn the_fill_rule_counts(rt: HostRuntime) -> Result<(), Fail> {
    let square = shape::<i32>(&rt, rt.alloc(), &[[0, 0], [0, 2], [2, 2], [2, 0]])?;
    assert_shape(&rt, &square);
    let mut overlay = PredicateOverlay::from_subj_and_clip(rt.alloc(), &square, &square)?;
    assert!(&rt; overlay.intersects()? && overlay.covers()?);
    overlay.fill_rule = FillRule::Positive;
    assert!(&rt; !overlay.intersects()? && !overlay.within()? && !overlay.covers()?);
    Ok(())
}
