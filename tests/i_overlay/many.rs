//! Many shapes with holes, side by side and in each other, at each coordinate type.

use crate::hierarchy::{Linked, check as check_links};
use crate::rows::{Row, check};
use i_overlay::fill_rule::FillRule;
use i_overlay::overlay::IntOverlayOptions;
use i_overlay::overlay_rule::OverlayRule;
use overlay_geom::integer::OverlayInt;
use small_points::contours::Points;
use std::alloc::Global;
use std::process::Abort;
use std::test::Fail;

// A square, as it comes out.
type Square = [(i16, i16); 4];

// A square as an outline, by its lower left and its upper right corner.
fn outline(low: (i16, i16), high: (i16, i16)) -> Square {
    [(low.0, high.1), low, (high.0, low.1), high]
}

// The square as a hole.
fn hole(low: (i16, i16), high: (i16, i16)) -> Square {
    [low, (low.0, high.1), high, (high.0, low.1)]
}

// The squares as contours.
fn contours_of(alloc: Global, squares: &[Square]) -> Result<Vec<Points<'_>, Global>, Fail> {
    let mut contours = Vec::new(alloc);
    for square in squares {
        contours.push(square.as_slice())?;
    }
    Ok(contours)
}

// The contours two by two: the shapes, if each outline stands before its hole.
fn pairs_of<'a>(
    alloc: Global,
    contours: &'a [Points<'a>],
) -> Result<Vec<&'a [Points<'a>], Global>, Fail> {
    let mut pairs = Vec::new(alloc);
    for pair in contours.chunks(2) {
        pairs.push(pair)?;
    }
    Ok(pairs)
}

// The contours as a subject, which is to give these shapes with these links.
fn linked_of<'a>(
    contours: &'a [Points<'a>],
    shapes: &'a [&'a [Points<'a>]],
    links: &'a [(usize, usize, usize)],
) -> Linked<'a> {
    let row = Row {
        subj: contours,
        clip: &[],
        rule: OverlayRule::Subject,
        fill: FillRule::EvenOdd,
        wanted: shapes,
    };
    Linked { row, links }
}

// The squares come out as they are added, two a shape, with these links.
fn check_pairs<I: OverlayInt + PartialEq + From<i16>>(
    rt: &impl Abort,
    alloc: Global,
    squares: &[Square],
    links: &[(usize, usize, usize)],
) -> Result<(), Fail> {
    let contours = contours_of(alloc, squares)?;
    let pairs = pairs_of(alloc, &contours)?;
    let linked = linked_of(&contours, &pairs, links);
    check::<I>(rt, alloc, &linked.row)?;
    check_links::<I>(rt, alloc, &linked, IntOverlayOptions::default())
}

// Forty squares side by side, each with a hole.
fn side_by_side(alloc: Global) -> Result<Vec<Square, Global>, Fail> {
    let mut squares = Vec::new(alloc);
    for i in 0..40u8 {
        let x = 10 * i16::from(i);
        squares.push(outline((x, 0), (x + 6, 6)))?;
        squares.push(hole((x + 2, 2), (x + 4, 4)))?;
    }
    Ok(squares)
}

// Seventy squares in each other.
fn in_one_another(alloc: Global) -> Result<Vec<Square, Global>, Fail> {
    let mut squares = Vec::new(alloc);
    for j in 0..35u8 {
        let low = 2 * i16::from(j);
        let high = 200 - low;
        squares.push(outline((low, low), (high, high)))?;
        squares.push(hole((low + 1, low + 1), (high - 1, high - 1)))?;
    }
    Ok(squares)
}

#[test]
fn forty_squares_with_holes(rt: HostRuntime) -> Result<(), Fail> {
    let squares = side_by_side(rt.alloc())?;
    check_pairs::<i16>(&rt, rt.alloc(), &squares, &[])?;
    check_pairs::<i32>(&rt, rt.alloc(), &squares, &[])?;
    check_pairs::<i64>(&rt, rt.alloc(), &squares, &[])
}

#[test]
fn seventy_squares_in_one_another(rt: HostRuntime) -> Result<(), Fail> {
    let squares = in_one_another(rt.alloc())?;
    let mut links = Vec::new(rt.alloc());
    for j in 0..34u8 {
        let j = usize::from(j);
        links.push((j, 2 * j + 1, j + 1))?;
    }
    check_pairs::<i16>(&rt, rt.alloc(), &squares, &links)?;
    check_pairs::<i32>(&rt, rt.alloc(), &squares, &links)?;
    check_pairs::<i64>(&rt, rt.alloc(), &squares, &links)
}
