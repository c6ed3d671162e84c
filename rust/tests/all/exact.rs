//! Relations of contours as they are added: values by hand, at each width.

use super::common::{of, square, Random};
use super::lists::{holding, FILLS};
use polyover::core::exact::{ExactPredicates, IntRelateExact};
use polyover::core::fill_rule::FillRule;
use polyover::core::overlay::ShapeType;
use polyover::core::relate::{IntRelate, Relations};
use polyover::error::OverlayError;
use polyover::float::relate::FloatRelate;
use polyover::i_float::int::number::int::IntNumber;
use polyover::i_float::int::point::IntPoint;

/// The names of the relations that hold, in the order of their bits.
fn named(holds: [bool; 7]) -> Vec<&'static str> {
    let names = [
        "intersects",
        "interiors intersect",
        "touches",
        "point",
        "within",
        "disjoint",
        "covers",
    ];
    names.into_iter().zip(holds).filter(|it| it.1).map(|it| it.0).collect()
}

/// The names of the relations that hold.
fn told(it: Relations) -> Vec<&'static str> {
    named(holding!(it))
}

fn points<I: IntNumber + From<i8>, const N: usize>(corners: [[i8; 2]; N]) -> [IntPoint<I>; N] {
    corners.map(|it| it.map(I::from).into())
}

fn at_each_rule<I: polyover::core::integer::OverlayInt + From<i8>, const N: usize>(
    subject: [[i8; 2]; N],
    clip: [[i8; 2]; N],
) -> [Vec<&'static str>; 4] {
    let (subject, clip) = (points::<I, N>(subject), points::<I, N>(clip));
    FILLS.map(|rule| {
        let predicates = ExactPredicates::from_subj_and_clip_custom(&subject, &clip, rule);
        let all = told(predicates.relations());
        assert_eq!(told_one_by_one(&predicates), all);
        all
    })
}

/// The names of the relations that hold, each asked alone.
fn told_one_by_one<I: polyover::core::integer::OverlayInt>(it: &ExactPredicates<I>) -> Vec<&'static str> {
    named(holding!(it))
}

fn rows<I: polyover::core::integer::OverlayInt + From<i8>>() {
    let overlaps = ["intersects", "interiors intersect"];
    let disjoint = ["disjoint"];
    // (the clip runs clockwise, so that neither signed rule fills both)
    let told = at_each_rule::<I, 3>([[0, -1], [4, 5], [1, 2]], [[0, 0], [4, 5], [5, 6]]);
    assert_eq!(
        told,
        [&overlaps[..], &overlaps, &disjoint, &disjoint].map(<[&str]>::to_vec)
    );
    // (both cross themselves in (1/3, 2/3), and meet there alone: above to the left and right, and below)
    let told = at_each_rule::<I, 4>([[0, 0], [1, 2], [1, 4], [0, -1]], [[0, 1], [1, 0], [1, -2], [0, 2]]);
    let meet = ["intersects", "touches", "point"];
    // (each has one lobe that winds once, and one that winds -1 times)
    assert_eq!(told, [&meet[..], &meet, &meet, &meet].map(<[&str]>::to_vec));
    // (squares with one corner, and with one side; the second runs clockwise)
    let told = at_each_rule::<I, 4>([[0, 0], [2, 0], [2, 2], [0, 2]], [[2, 2], [4, 2], [4, 4], [2, 4]]);
    assert_eq!(told, [&meet[..], &meet, &meet, &disjoint].map(<[&str]>::to_vec));
    let told = at_each_rule::<I, 4>([[0, 0], [2, 0], [2, 2], [0, 2]], [[2, 0], [2, 2], [4, 2], [4, 0]]);
    let along = ["intersects", "touches"];
    assert_eq!(told, [&along[..], &along, &disjoint, &disjoint].map(<[&str]>::to_vec));
    // (thin triangles with one border, from (0, 0) to (5, 2): both counterclockwise)
    let told = at_each_rule::<I, 3>([[0, 0], [3, 1], [5, 2]], [[0, 0], [5, 2], [2, 1]]);
    let touch = ["intersects", "touches"];
    assert_eq!(told, [&touch[..], &touch, &touch, &disjoint].map(<[&str]>::to_vec));
    // (the thin triangle in a larger one with that border)
    let told = at_each_rule::<I, 3>([[0, 0], [3, 1], [5, 2]], [[0, 0], [5, 0], [5, 2]]);
    let within = ["intersects", "interiors intersect", "within"];
    assert_eq!(told, [&within[..], &within, &within, &disjoint].map(<[&str]>::to_vec));
}

#[test]
fn relations_by_hand() {
    rows::<i16>();
    rows::<i32>();
    rows::<i64>();
}

/// Two thin triangles from corner to corner of the range, which share the diagonal.
fn thin<I: IntNumber>(ends: [I; 4]) -> [[IntPoint<I>; 3]; 2] {
    let [low, low_and_one, high_less_one, high] = ends;
    let below = [[low, low], [high, high_less_one], [high, high]].map(IntPoint::from);
    let above = [[low, low], [high, high], [low, low_and_one]].map(IntPoint::from);
    [below, above]
}

#[test]
fn ends_of_the_range() {
    const MAX: i64 = (1 << 62) - 1;
    let [below, above] = thin([-MAX, 1 - MAX, MAX - 1, MAX]);
    assert_eq!(told(below.exact_relations(&above)), ["intersects", "touches"]);
    let [below, above] = thin([i32::MIN, i32::MIN + 1, i32::MAX - 1, i32::MAX]);
    assert_eq!(told(below.exact_relations(&above)), ["intersects", "touches"]);
    let [below, above] = thin([i16::MIN, i16::MIN + 1, i16::MAX - 1, i16::MAX]);
    assert_eq!(told(below.exact_relations(&above)), ["intersects", "touches"]);
    let beyond = square(-MAX, MAX + 1);
    assert_eq!(beyond.try_exact_relations(&square(0, 1)), Err(OverlayError::OutOfRange));
    assert_eq!(square(0, 1).try_exact_relations(&beyond), Err(OverlayError::OutOfRange));
}

#[test]
#[should_panic(expected = "polyover: a coordinate is out of the coordinate range")]
fn predicates_panic_where_they_are_refused() {
    square(0, i64::MAX).intersects_exact(&square(0, 1));
}

#[test]
fn builders_hold_what_is_added() {
    let mut predicates = ExactPredicates::<i32>::new(8);
    assert_eq!(told(predicates.relations()), ["disjoint"]);
    predicates.add_contour(&square(0, 4), ShapeType::Subject);
    predicates.add_path_iter(square(1, 2).into_iter(), ShapeType::Clip);
    assert!(predicates.covers() && !predicates.within() && predicates.interiors_intersect());
    // (the second square is a hole of the subject, under EvenOdd)
    predicates.try_add_source(&square(1, 2), ShapeType::Subject).unwrap();
    assert!(predicates.touches() && predicates.intersects() && !predicates.point_intersects());
    predicates.fill_rule = FillRule::NonZero;
    assert!(predicates.covers() && !predicates.disjoint());
    predicates.clear();
    assert!(predicates.disjoint());
}

/// Where no edges meet but in whole points, the arrangement has the same relations. Both swap with their order.
#[test]
fn relations_agree() {
    let mut random = Random(5);
    for turn in 0..300 {
        let reach = if turn % 2 == 0 { 8 } else { i16::MAX };
        let (one, other) = (of::<i64>(&random.contours(reach)), of::<i64>(&random.contours(reach)));
        let (there, back) = (one.exact_relations(&other), other.exact_relations(&one));
        assert_eq!([there.within(), there.covers()], [back.covers(), back.within()]);
        assert_eq!(
            [
                there.intersects(),
                there.touches(),
                there.point_intersects(),
                there.disjoint()
            ],
            [
                back.intersects(),
                back.touches(),
                back.point_intersects(),
                back.disjoint()
            ]
        );
        assert_eq!(told(of::<i32>(&[]).exact_relations(&of::<i32>(&[]))), ["disjoint"]);
        assert_eq!(one.intersects_exact(&other), there.intersects());
        assert_eq!(one.interiors_intersect_exact(&other), there.interiors_intersect());
        assert_eq!(one.touches_exact(&other), there.touches());
        assert_eq!(one.point_intersects_exact(&other), there.point_intersects());
        assert_eq!(one.within_exact(&other), there.within());
        assert_eq!(one.disjoint_exact(&other), there.disjoint());
        assert_eq!(one.covers_exact(&other), there.covers());
    }
    for (low, high) in [(2, 4), (0, 2), (1, 3), (-1, 3), (5, 6), (1, 2)] {
        let (one, other) = (square(0, 2), square(low, high));
        assert_eq!(one.exact_relations(&other), one.try_relations(&other).unwrap());
    }
}

#[test]
fn floats_on_their_grid() {
    // (quarters: the step of the grid is finer)
    let thin = [[0.0, 0.0], [0.75, 0.25], [1.25, 0.5]];
    let around = [[0.0, 0.0], [1.25, 0.0], [1.25, 0.5]];
    let above = [[0.0, 0.0], [1.25, 0.5], [0.5, 0.25]];
    assert!(thin.try_exact_relations(&around).unwrap().within());
    assert_eq!(
        told(thin.try_exact_relations(&above).unwrap()),
        ["intersects", "touches"]
    );
}
