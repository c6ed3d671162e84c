//! The calls at three widths, and at the ends of the range.

use super::common::{of, square, Random};
use super::lists::{FILLS, RULES};
use polyover::core::fill_rule::FillRule;
use polyover::core::overlay::{IntOverlayOptions, Overlay};
use polyover::core::overlay_rule::OverlayRule;
use polyover::core::point_location::{IntPointContainment, PointLocation};
use polyover::core::relate::IntRelate;
use polyover::core::simplify::Simplify;
use polyover::core::single::SingleIntOverlay;
use polyover::core::solver::Solver;
use polyover::error::OverlayError;
use polyover::i_float::int::number::int::IntNumber;
use polyover::i_float::int::point::IntPoint;
use polyover::i_shape::flat::buffer::FlatContoursBuffer;
use polyover::i_shape::int::area::Area;
use polyover::i_shape::int::shape::IntShapes;
use polyover::prepared::{ExactShape, PreparedShape};

fn numbers<T: IntNumber + Into<i64>>(shapes: &IntShapes<T>) -> IntShapes<i64> {
    let point = |it: &IntPoint<T>| IntPoint::new(it.x.into(), it.y.into());
    let contour = |it: &Vec<IntPoint<T>>| it.iter().map(point).collect();
    shapes.iter().map(|it| it.iter().map(contour).collect()).collect()
}

#[test]
fn widths_and_forms_agree() {
    let mut random = Random(1);
    for turn in 0..200 {
        let reach = if turn % 2 == 0 { 8 } else { i16::MAX };
        let (one, other) = (random.contours(reach), random.contours(reach));
        let (one16, other16) = (of::<i16>(&one), of::<i16>(&other));
        let (one32, other32) = (of::<i32>(&one), of::<i32>(&other));
        let (one64, other64) = (of::<i64>(&one), of::<i64>(&other));
        for rule in RULES {
            for fill in FILLS {
                let shapes = one64.overlay(&other64, rule, fill);
                assert_eq!(numbers(&one16.overlay(&other16, rule, fill)), shapes);
                assert_eq!(numbers(&one32.overlay(&other32, rule, fill)), shapes);
                let overlay = Overlay::from_subj_and_clip(&one32, &other32);
                let linked = overlay.try_overlay_hierarchy(rule, fill).unwrap();
                assert_eq!(numbers(&linked.shapes.to_shapes()), shapes);
                let mut flat = FlatContoursBuffer::default();
                overlay.try_overlay_into(rule, fill, &mut flat).unwrap();
                assert_eq!(
                    numbers(&vec![vec![flat.points]]).concat().concat(),
                    shapes.concat().concat()
                );
                let answer = overlay.try_answer(rule, fill).unwrap();
                let read: IntShapes<i32> = answer
                    .shapes()
                    .map(|it| it.contours().map(|it| it.points().collect()).collect())
                    .collect();
                assert_eq!(numbers(&read), shapes);
                assert_eq!(answer.contours().len(), flat.ranges.len());
                assert_eq!(answer.point_count(), shapes.concat().concat().len());
            }
        }
    }
}

#[test]
fn one_relation_is_what_all_tell_of_it() {
    let mut random = Random(2);
    for turn in 0..300 {
        let reach = if turn % 2 == 0 { 8 } else { i16::MAX };
        let (one, other) = (of::<i64>(&random.contours(reach)), of::<i64>(&random.contours(reach)));
        let all = one.try_relations(&other).unwrap();
        assert_eq!(one.intersects(&other), all.intersects());
        assert_eq!(one.interiors_intersect(&other), all.interiors_intersect());
        assert_eq!(one.touches(&other), all.touches());
        assert_eq!(one.point_intersects(&other), all.point_intersects());
        assert_eq!(one.within(&other), all.within());
        assert_eq!(one.disjoint(&other), all.disjoint());
        assert_eq!(one.covers(&other), all.covers());
    }
    // (two squares with a common corner, and one in another)
    let (low, high) = (square(0_i32, 2), square(2, 4));
    assert!(low.intersects(&high) && low.touches(&high) && low.point_intersects(&high));
    assert!(!low.interiors_intersect(&high) && !low.disjoint(&high) && !low.within(&high) && !low.covers(&high));
    assert!(square(1, 2).within(&square(0, 3)) && square(0, 3).covers(&square(1, 2)));
    assert!(square(0, 1).disjoint(&square(2, 3)));
}

#[test]
fn all_i16_and_i32_are_in_range() {
    let (all, half) = (square(i32::MIN, i32::MAX), square(i32::MIN, 0));
    let corners = [[i32::MIN, 0], [i32::MIN, i32::MIN], [0, i32::MIN], [0, 0]];
    assert_eq!(
        all.overlay(&half, OverlayRule::Intersect, FillRule::NonZero),
        [[corners.map(IntPoint::from)]]
    );
    assert!(half.within(&all) && all.covers(&half));
    let points = [[0, 0], [i32::MAX, 0]].map(IntPoint::from);
    assert_eq!(all.contains_points(&points), [true, false]);
    let prepared = PreparedShape::new(&all, FillRule::NonZero, Solver::default()).unwrap();
    let inside_and_boundary = [PointLocation::Inside, PointLocation::Boundary];
    assert_eq!(prepared.try_locate(&points).unwrap(), inside_and_boundary);
    let exact = ExactShape::new(&all, FillRule::NonZero).unwrap();
    assert_eq!(exact.try_locate(&points).unwrap(), inside_and_boundary);
    let all = square(i16::MIN, i16::MAX);
    assert_eq!(
        all.simplify(FillRule::NonZero, IntOverlayOptions::default()),
        [[all.clone()]]
    );
    // (the area, 65535^2, passes the type)
    assert_eq!(all.area(), i32::MAX);
}

#[test]
fn points_far_from_a_shape_at_32_bits_lie_outside() {
    let shape = PreparedShape::new(&square(0, 10), FillRule::NonZero, Solver::default()).unwrap();
    let points = [[i32::MAX, 5], [5, 5], [i32::MIN, i32::MIN]].map(IntPoint::from);
    let expected = [PointLocation::Outside, PointLocation::Inside, PointLocation::Outside];
    assert_eq!(shape.try_locate(&points).unwrap(), expected);
    let exact = ExactShape::new(&square(0, 10), FillRule::NonZero).unwrap();
    assert_eq!(exact.try_locate(&points).unwrap(), expected);
}

#[test]
fn i64_beyond_the_range_is_refused() {
    const MAX: i64 = (1 << 62) - 1;
    let (most, more) = (square(-MAX, MAX), square(-MAX, MAX + 1));
    let union = |it: &Vec<IntPoint<i64>>| it.try_overlay(&most, OverlayRule::Union, FillRule::NonZero);
    assert_eq!(
        union(&most).unwrap(),
        [[square(-MAX, MAX)]].map(|[it]| vec![turned_to_the_first(it)])
    );
    assert_eq!(union(&more), Err(OverlayError::OutOfRange));
    assert_eq!(more.try_relations(&most), Err(OverlayError::OutOfRange));
    assert_eq!(more.try_locate_points(&most), Err(OverlayError::OutOfRange));
    assert_eq!(
        OverlayError::OutOfRange.to_string(),
        "a coordinate is out of the coordinate range"
    );
}

/// A square from its upper left corner, where a contour of an overlay begins.
fn turned_to_the_first(mut square: Vec<IntPoint<i64>>) -> Vec<IntPoint<i64>> {
    square.rotate_right(1);
    square
}

#[test]
#[should_panic(expected = "polyover: a coordinate is out of the coordinate range")]
fn calls_with_the_signature_of_i_overlay_panic() {
    square(0, i64::MAX).overlay(&square(0_i64, 1), OverlayRule::Union, FillRule::NonZero);
}
