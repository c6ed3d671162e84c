//! Builders of which one predicate is asked first, by an edge that tells it and where none does, and then others.

use crate::again::{
    ALONG, APART, AT_A_CORNER, BORDERING, Built, CORNERED, COVERING, EQUAL, INSIDE, OVER, SQUARE,
    WITHIN, add, asked,
};
use overlay_geom::error::OverlayError;
use overlay_geom::fill_rule::FillRule;
use overlay_geom::integer::OverlayInt;
use overlay_relate::predicate_overlay::{PredicateOverlay, ShapeType};
use std::alloc::Global;
use std::process::Abort;
use std::test::Fail;

const PREDICATES: usize = 6;

const FAR: [[i16; 2]; 4] = [[9, 9], [11, 9], [11, 11], [9, 11]];

const OVER_A_CORNER: [[i16; 2]; 4] = [[2, 2], [6, 2], [6, 6], [2, 6]];

fn built<I: OverlayInt + From<i16>>(
    rt: &impl Abort,
    alloc: Global,
    subj: &[[i16; 2]],
    clip: &[[i16; 2]],
) -> Result<Built<I>, Fail> {
    let mut overlay: Built<I> = PredicateOverlay::new(alloc, 0)?;
    add(rt, &mut overlay, subj, ShapeType::Subject, alloc)?;
    add(rt, &mut overlay, clip, ShapeType::Clip, alloc)?;
    Ok(overlay)
}

// The answer of one predicate, by its place among those of `asked`.
fn ask<I: OverlayInt>(overlay: &mut Built<I>, number: usize) -> Result<bool, OverlayError> {
    match number {
        0 => overlay.intersects(),
        1 => overlay.interiors_intersect(),
        2 => overlay.touches(),
        3 => overlay.point_intersects(),
        4 => overlay.within(),
        _ => overlay.covers(),
    }
}

// Tests each predicate as the first query, repeated or not, and each as the second.
fn by_first_query<I: OverlayInt + From<i16>>(
    rt: &impl Abort,
    alloc: Global,
    subj: &[[i16; 2]],
    clip: &[[i16; 2]],
    wanted: [bool; 6],
) -> Result<(), Fail> {
    for first in 0..PREDICATES {
        for second in 0..PREDICATES {
            let mut overlay = built::<I>(rt, alloc, subj, clip)?;
            assert!(rt; ask(&mut overlay, first)? == wanted[first]);
            assert!(rt; ask(&mut overlay, second)? == wanted[second]);
            assert!(rt; ask(&mut overlay, first)? == wanted[first]);
            assert!(rt; asked(&mut overlay)? == wanted);
        }
        let mut overlay = built::<I>(rt, alloc, subj, clip)?;
        assert!(rt; ask(&mut overlay, first)? == wanted[first]);
        assert!(rt; overlay.relations()?.disjoint != wanted[0]);
        assert!(rt; asked(&mut overlay)? == wanted);
    }
    Ok(())
}

fn rows<I: OverlayInt + From<i16>>(rt: &impl Abort, alloc: Global) -> Result<(), Fail> {
    by_first_query::<I>(rt, alloc, &SQUARE, &FAR, APART)?;
    by_first_query::<I>(rt, alloc, &SQUARE, &AT_A_CORNER, CORNERED)?;
    by_first_query::<I>(rt, alloc, &SQUARE, &ALONG, BORDERING)?;
    by_first_query::<I>(rt, alloc, &SQUARE, &OVER_A_CORNER, OVER)?;
    by_first_query::<I>(rt, alloc, &INSIDE, &SQUARE, WITHIN)?;
    by_first_query::<I>(rt, alloc, &SQUARE, &INSIDE, COVERING)?;
    by_first_query::<I>(rt, alloc, &SQUARE, &SQUARE, EQUAL)?;
    by_first_query::<I>(rt, alloc, &SQUARE, &[], APART)?;
    by_first_query::<I>(rt, alloc, &[], &SQUARE, APART)?;
    by_first_query::<I>(rt, alloc, &[], &[], APART)
}

#[test]
fn each_predicate_first(rt: HostRuntime) -> Result<(), Fail> {
    rows::<i16>(&rt, rt.alloc())?;
    rows::<i32>(&rt, rt.alloc())?;
    rows::<i64>(&rt, rt.alloc())
}

// Tests the first query, then others under a rule that fills nothing, and then again under the rule of the first.
fn with_a_rule_between<I: OverlayInt + From<i16>>(
    rt: &impl Abort,
    alloc: Global,
    clip: &[[i16; 2]],
    wanted: [bool; 6],
) -> Result<(), Fail> {
    for first in 0..PREDICATES {
        let mut overlay = built::<I>(rt, alloc, &SQUARE, clip)?;
        assert!(rt; ask(&mut overlay, first)? == wanted[first]);
        overlay.fill_rule = FillRule::Negative;
        assert!(rt; !ask(&mut overlay, first)?);
        overlay.fill_rule = FillRule::EvenOdd;
        assert!(rt; ask(&mut overlay, first)? == wanted[first]);
        assert!(rt; asked(&mut overlay)? == wanted);
        overlay.fill_rule = FillRule::Negative;
        assert!(rt; asked(&mut overlay)? == APART);
        let mut overlay = built::<I>(rt, alloc, &SQUARE, clip)?;
        overlay.fill_rule = FillRule::Negative;
        assert!(rt; !ask(&mut overlay, first)?);
        overlay.fill_rule = FillRule::EvenOdd;
        assert!(rt; asked(&mut overlay)? == wanted);
    }
    Ok(())
}

#[test]
fn another_rule_between(rt: HostRuntime) -> Result<(), Fail> {
    let alloc = rt.alloc();
    with_a_rule_between::<i32>(&rt, alloc, &FAR, APART)?;
    with_a_rule_between::<i32>(&rt, alloc, &AT_A_CORNER, CORNERED)?;
    with_a_rule_between::<i32>(&rt, alloc, &ALONG, BORDERING)?;
    with_a_rule_between::<i32>(&rt, alloc, &OVER_A_CORNER, OVER)?;
    with_a_rule_between::<i32>(&rt, alloc, &INSIDE, COVERING)?;
    with_a_rule_between::<i32>(&rt, alloc, &SQUARE, EQUAL)
}

// What was told of fewer edges is not kept.
#[test]
fn more_is_added_after_the_first(rt: HostRuntime) -> Result<(), Fail> {
    let alloc = rt.alloc();
    for first in 0..PREDICATES {
        let mut overlay = built::<i32>(&rt, alloc, &SQUARE, &FAR)?;
        assert!(&rt; !ask(&mut overlay, first)?);
        add(&rt, &mut overlay, &OVER_A_CORNER, ShapeType::Clip, alloc)?;
        assert!(&rt; ask(&mut overlay, first)? == OVER[first]);
        overlay.clear();
        assert!(&rt; !ask(&mut overlay, first)?);
    }
    Ok(())
}
