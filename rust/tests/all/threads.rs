//! Values that several threads share.

use super::common::{of, square, Random};
use polyover::core::answer::OverlayAnswer;
use polyover::core::fill_rule::FillRule;
use polyover::core::overlay::{IntOverlayOptions, Overlay};
use polyover::core::overlay_rule::OverlayRule;
use polyover::core::point_location::{IntPointContainment, PointLocation};
use polyover::core::relate::{IntRelate, PredicateOverlay};
use polyover::core::simplify::Simplify;
use polyover::core::solver::Solver;
use polyover::float::overlay::FloatOverlay;
use polyover::i_float::int::point::IntPoint;
use polyover::prepared::{ExactShape, PreparedShape};
use polyover::string::overlay::StringOverlay;
use std::thread::scope;

#[test]
fn all_may_be_shared() {
    fn is_shared<T: Send + Sync>() {}
    is_shared::<Overlay<i64>>();
    is_shared::<PredicateOverlay<i16>>();
    is_shared::<StringOverlay<i32>>();
    is_shared::<FloatOverlay<[f32; 2]>>();
    is_shared::<OverlayAnswer<i32>>();
    is_shared::<PreparedShape<i32>>();
    is_shared::<ExactShape<i32>>();
}

#[test]
fn a_prepared_shape_is_asked_by_many() {
    let shape = of::<i32>(&Random(3).contours(100));
    let prepared = PreparedShape::new(&shape, FillRule::EvenOdd, Solver::default()).unwrap();
    let points: Vec<IntPoint> = (0..1000).map(|at| [at % 201 - 100, at / 5 - 100].into()).collect();
    let whole = prepared.try_locate(&points).unwrap();
    scope(|scope| {
        for _ in 0..8 {
            scope.spawn(|| assert_eq!(prepared.try_locate(&points).unwrap(), whole));
        }
    });
    // (of the simplified shapes, but for points on edges)
    let simple = shape.simplify(FillRule::EvenOdd, IntOverlayOptions::ogc());
    for (told, known) in simple.try_locate_points(&points).unwrap().into_iter().zip(whole) {
        assert!(told == known || told == PointLocation::Boundary || known == PointLocation::Boundary);
    }
}

#[test]
fn an_answer_is_read_by_many() {
    let overlay = Overlay::from_subj_and_clip(&square(0, 10), &square(5, 15));
    let answer = overlay.try_answer(OverlayRule::Union, FillRule::NonZero).unwrap();
    scope(|scope| {
        for _ in 0..8 {
            scope.spawn(|| assert_eq!(answer.contours().flat_map(|it| it.points()).count(), 8));
        }
    });
}

#[test]
fn relations_are_asked_by_many() {
    scope(|scope| {
        for _ in 0..8 {
            scope.spawn(|| assert!(square(0, 20).try_relations(&square(5, 15)).unwrap().covers()));
        }
    });
}

#[test]
fn little_stack_is_enough() {
    // (64 KiB: of 300 edges that cross in many points)
    let asked = std::thread::Builder::new().stack_size(64 * 1024).spawn(|| {
        let point = |at: i64| IntPoint::new(at * 7919 % 10_007, at * 104_729 % 10_009);
        let contour: Vec<_> = (0..300).map(point).collect();
        contour.simplify(FillRule::EvenOdd, IntOverlayOptions::default()).len()
    });
    assert!(asked.unwrap().join().unwrap() > 1000);
}
