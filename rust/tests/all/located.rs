//! Where points lie in contours as they are given: values by hand, at each width.

use super::common::square;
use super::lists::FILLS;
use polyover::core::fill_rule::FillRule;
use polyover::core::integer::OverlayInt;
use polyover::core::point_location::PointLocation;
use polyover::core::solver::Solver;
use polyover::error::OverlayError;
use polyover::i_float::int::point::IntPoint;
use polyover::prepared::{ExactShape, PreparedShape};

fn contours<I: OverlayInt + From<i8>>(of: &[&[[i8; 2]]]) -> Vec<Vec<IntPoint<I>>> {
    of.iter().map(|it| points(it)).collect()
}

fn points<I: OverlayInt + From<i8>>(of: &[[i8; 2]]) -> Vec<IntPoint<I>> {
    of.iter().map(|it| it.map(I::from).into()).collect()
}

/// A letter for each point, under each fill rule.
fn told<I: OverlayInt + From<i8>>(shape: &[&[[i8; 2]]], asked: &[[i8; 2]]) -> [String; 4] {
    FILLS.map(|rule| {
        let shape = ExactShape::new(&contours::<I>(shape), rule).unwrap();
        shape
            .try_locate(&points(asked))
            .unwrap()
            .into_iter()
            .map(letter)
            .collect()
    })
}

fn letter(of: PointLocation) -> char {
    match of {
        PointLocation::Outside => 'o',
        PointLocation::Inside => 'i',
        PointLocation::Boundary => 'b',
    }
}

fn rows<I: OverlayInt + From<i8>>() {
    // (lower edges of two triangles cross in (1, 1/3), above (1, 0))
    let thirds: [&[[i8; 2]]; 2] = [&[[0, 0], [3, 1], [0, 3]], &[[0, 1], [3, -1], [3, 1]]];
    let asked = [[1, 0], [2, 0], [1, 1], [2, 1], [0, 1], [0, 0], [3, 1], [2, 2]];
    assert_eq!(
        told::<I>(&thirds, &asked),
        ["oibbbbbo", "oiiibbbo", "oiiibbbo", "oooooooo"]
    );
    // (upper edges cross in (3, 6/7), below (3, 1); the second triangle runs clockwise)
    let sevenths: [&[[i8; 2]]; 2] = [&[[0, 0], [7, -3], [7, 2]], &[[-3, 0], [4, 1], [4, -4]]];
    let asked = [[3, 1], [3, 0], [4, 1], [4, 0], [5, 1], [-1, 0], [-3, 0], [7, 2]];
    assert_eq!(
        told::<I>(&sevenths, &asked),
        ["oobbiibb", "oobbiibb", "oobbioob", "oooooibo"]
    );
    // ((3, 1) is inside a sliver)
    let sliver: [&[[i8; 2]]; 2] = [&[[0, 0], [7, 2], [5, 2]], &[[-3, 0], [4, -4], [4, 1]]];
    let asked = [[3, 1], [5, 2], [6, 2], [7, 2], [2, 1], [2, 0]];
    assert_eq!(told::<I>(&sliver, &asked), ["ibbboi", "ibbboi", "ibbboi", "oooooo"]);
    // (it crosses itself in (2, 6/5), above (2, 1))
    let bow: [&[[i8; 2]]; 1] = [&[[0, 0], [5, 3], [5, 0], [0, 2]]];
    let asked = [[1, 1], [3, 1], [2, 1], [2, 2], [0, 1], [5, 1], [1, 0]];
    assert_eq!(told::<I>(&bow, &asked), ["iioobbo", "iioobbo", "ioooboo", "oiooobo"]);
    assert_eq!(told::<I>(&[], &[[0, 0]]), ["o"; 4]);
}

#[test]
fn contours_that_cross() {
    rows::<i16>();
    rows::<i32>();
    rows::<i64>();
}

#[test]
fn an_arrangement_rounds() {
    let sliver = contours::<i32>(&[&[[0, 0], [7, 2], [5, 2]], &[[-3, 0], [4, -4], [4, 1]]]);
    let shape = PreparedShape::new(&sliver, FillRule::NonZero, Solver::default()).unwrap();
    assert_eq!(shape.try_locate(&points(&[[3, 1]])).unwrap(), [PointLocation::Boundary]);
}

#[test]
fn the_ends_of_the_range() {
    const MAX: i64 = (1 << 62) - 1;
    let half = [[-MAX, -MAX], [MAX, MAX - 1], [-MAX, MAX]].map(IntPoint::from);
    let shape = ExactShape::new(&half, FillRule::NonZero).unwrap();
    let asked = [[0, 0], [0, -1], [MAX, MAX - 1], [MAX, MAX], [-1, -2]].map(IntPoint::from);
    let told: String = shape.try_locate(&asked).unwrap().into_iter().map(letter).collect();
    assert_eq!(told, "ioboo");
    let beyond = IntPoint::new(MAX + 1, 0);
    assert_eq!(shape.try_locate(&[beyond]), Err(OverlayError::OutOfRange));
    let refused = ExactShape::new(&square(-MAX, MAX + 1), FillRule::NonZero).unwrap_err();
    assert_eq!(refused, OverlayError::OutOfRange);
}
