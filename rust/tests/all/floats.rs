//! Floats on their grids.

use polyover::core::fill_rule::FillRule;
use polyover::core::overlay_rule::OverlayRule;
use polyover::error::OverlayError;
use polyover::float::clip::FloatClip;
use polyover::float::grid::Grid;
use polyover::float::overlay::{FloatOverlay, OverlayOptions};
use polyover::float::relate::{FloatPredicateOverlay, FloatRelate};
use polyover::float::scale::{FixedScaleFloatOverlay, FixedScaleFloatRelate, FixedScaleOverlayError};
use polyover::float::single::SingleFloatOverlay;
use polyover::float::slice::FloatSlice;
use polyover::i_float::float::compatible::FloatPointCompatible;
use polyover::string::clip::ClipRule;

const UNION: OverlayRule = OverlayRule::Union;
const NON_ZERO: FillRule = FillRule::NonZero;

fn triangle(scale: f64) -> [[f64; 2]; 3] {
    [[0.1, 0.3], [0.7, 0.3], [0.7, 0.9]].map(|it| it.map(|it| it * scale))
}

fn sorted(mut points: Vec<[f64; 2]>) -> Vec<[f64; 2]> {
    points.sort_by(|a, b| a.partial_cmp(b).unwrap());
    points
}

#[test]
fn corners_come_back_bit_by_bit() {
    for scale in [1.0, 1e-9, 1e300, 1e-280, 0.1, 1e15] {
        let triangle = triangle(scale);
        let union = triangle.overlay(&triangle, UNION, NON_ZERO);
        assert_eq!(sorted(union.concat().concat()), sorted(triangle.to_vec()), "{scale}");
    }
    let narrow = triangle(1.0).map(|it| it.map(|it| it as f32));
    let union = narrow.overlay(&narrow, UNION, NON_ZERO);
    assert!(narrow.iter().all(|it| union[0][0].contains(it)));
}

#[test]
fn a_coordinate_loses_half_a_step_at_most() {
    let points = triangle(1.0);
    let grid = Grid::<i32>::finest(&points, &points).unwrap();
    // (0.9 is below 2^0)
    assert_eq!(grid.step(), 1.0 / f64::from(1 << 29));
    let union = points.try_overlay_on(&points, UNION, NON_ZERO, &grid).unwrap();
    for (got, want) in sorted(union.concat().concat()).iter().zip(sorted(points.to_vec())) {
        assert!((got[0] - want[0]).abs() <= grid.step() / 2.0 && (got[1] - want[1]).abs() <= grid.step() / 2.0);
        assert!(got.iter().all(|it| (it / grid.step()).fract() == 0.0));
    }
    // (halves go to the even one: 0.5 to 0, 1.5 to 2, -2.5 to -2)
    let whole = Grid::<i64>::new(0).unwrap();
    let square = [[0.5, 0.5], [1.5, 0.5], [1.5, -2.5], [0.5, -2.5]];
    let union = square.try_overlay_on(&square, UNION, NON_ZERO, &whole).unwrap();
    assert_eq!(union, [[[[0.0, 0.0], [0.0, -2.0], [2.0, -2.0], [2.0, 0.0]]]]);
}

#[test]
fn what_no_grid_has_is_refused() {
    let (fine, none) = (triangle(1.0), [[f64::NAN, 0.0]]);
    let union = |it: &[[f64; 2]]| it.try_overlay(&fine[..], UNION, NON_ZERO).map(|_| ());
    assert_eq!(union(&none), Err(OverlayError::NotFinite));
    assert_eq!(union(&[[0.0, f64::NEG_INFINITY]]), Err(OverlayError::NotFinite));
    assert_eq!(union(&[[0.0, f64::MAX]]), Err(OverlayError::OutOfRange));
    assert_eq!(union(&[[0.0, 2_f64.powi(1022)]]), Ok(()));
    assert_eq!(
        [[f32::MAX; 2]].try_overlay(&[[0_f32; 2]], UNION, NON_ZERO),
        Err(OverlayError::OutOfRange)
    );
    let coarse = Grid::<i16>::new(0).unwrap();
    let wide = [[0.0, 0.0], [8193.0, 0.0], [0.0, 1.0]];
    assert_eq!(
        wide.try_overlay_on(&wide, UNION, NON_ZERO, &coarse),
        Err(OverlayError::OutOfRange)
    );
    assert!(Grid::<i64>::new(1023).is_none() && Grid::<i64>::new(-1023).is_none());
    let overlay = FloatOverlay::<[f64; 2]>::try_from_subj_and_clip(&none, &fine).map(|_| ());
    assert_eq!(overlay, Err(OverlayError::NotFinite));
}

#[test]
fn fixed_scales_are_tested() {
    let square = [[0.0, 0.0], [0.1, 0.0], [0.1, 0.1], [0.0, 0.1]];
    let union = |scale| square.overlay_with_fixed_scale(&square, UNION, NON_ZERO, scale);
    // (0.1 times 15 is 1.5, which goes to 2: 2 / 15)
    let side = 2.0 / 15.0;
    assert_eq!(
        union(15.0).unwrap(),
        [[[[0.0, side], [0.0, 0.0], [side, 0.0], [side, side]]]]
    );
    assert_eq!(union(f64::NAN), Err(FixedScaleOverlayError::ScaleNonFinite));
    assert_eq!(union(f64::INFINITY), Err(FixedScaleOverlayError::ScaleNonFinite));
    assert_eq!(union(0.0), Err(FixedScaleOverlayError::ScaleNonPositive));
    assert_eq!(union(-1.0), Err(FixedScaleOverlayError::ScaleNonPositive));
    assert_eq!(union(1e-310), Err(FixedScaleOverlayError::ScaleTooSmall));
    assert_eq!(union(1e300), Err(FixedScaleOverlayError::ScaleTooLarge));
    let none = [[f64::NAN, 0.0]];
    let refused = none.intersects_with_fixed_scale(&square[..].to_vec(), 10.0);
    assert_eq!(refused, Err(FixedScaleOverlayError::InvalidRect));
    assert_eq!(square.covers_with_fixed_scale(&square, 10.0), Ok(true));
    let mut fixed = FloatOverlay::with_subj_and_clip_fixed_scale(&square, &square, 10.0).unwrap();
    assert_eq!(fixed.grid().step(), 0.1);
    // (a builder keeps its scale)
    let wide = square.map(|it| it.map(|it| it * 1e20));
    assert_eq!(
        fixed.try_reinit_with_subj_and_clip(&wide, &square),
        Err(OverlayError::OutOfRange)
    );
    assert_eq!(fixed.overlay(UNION, NON_ZERO).len(), 1);
    // (1.5 squared steps are as near to 1 as to 2, and the triangle has just that area)
    let triangle = [[0.0, 0.0], [3.0, 0.0], [0.0, 1.0]];
    let mut least = FloatOverlay::with_subj_and_clip_fixed_scale(&triangle, &triangle, 1.0).unwrap();
    for (area, left) in [(1.5, 1), (1.75, 0)] {
        least.options.min_output_area = area;
        assert_eq!(least.overlay(UNION, NON_ZERO).len(), left, "{area}");
    }
}

#[test]
fn options_of_floats() {
    let squares = [
        vec![[0.0, 0.0], [0.5, 0.0], [0.5, 0.5], [0.0, 0.5]],
        vec![[2.0, 0.0], [4.0, 0.0], [4.0, 2.0], [2.0, 2.0]],
    ];
    let none: [Vec<[f64; 2]>; 0] = [];
    let mut overlay = FloatOverlay::with_subj_and_clip(&squares, &none);
    let count = |overlay: &FloatOverlay<[f64; 2]>| overlay.try_overlay(UNION, NON_ZERO).map(|it| it.len());
    // (the areas are 0.25 and 4)
    for (area, left) in [
        (0.0, 2),
        (0.25, 2),
        (0.26, 1),
        (4.0, 1),
        (4.1, 0),
        (f64::INFINITY, 0),
        (-1.0, 2),
    ] {
        overlay.options.min_output_area = area;
        assert_eq!(count(&overlay), Ok(left), "{area}");
    }
    overlay.options.min_output_area = f64::NAN;
    assert_eq!(count(&overlay), Err(OverlayError::NotFinite));
    overlay.options = OverlayOptions {
        preserve_input_collinear: true,
        ..OverlayOptions::default()
    };
    assert_eq!(count(&overlay), Ok(2));
}

#[derive(Clone, Copy, Debug, PartialEq)]
struct Place {
    east: f32,
    north: f32,
}

impl FloatPointCompatible for Place {
    type Scalar = f32;

    fn from_xy(east: f32, north: f32) -> Self {
        Self { east, north }
    }

    fn x(&self) -> f32 {
        self.east
    }

    fn y(&self) -> f32 {
        self.north
    }
}

#[test]
fn points_of_another_type() {
    let square = |low: f32, high: f32| {
        let corners = [[low, low], [high, low], [high, high], [low, high]];
        corners.map(|[east, north]| Place { east, north })
    };
    let shared = square(0.0, 2.0).overlay(&square(1.0, 3.0), OverlayRule::Intersect, FillRule::EvenOdd);
    assert_eq!(shared[0][0].len(), 4);
    assert!(shared[0][0].contains(&Place { east: 1.0, north: 2.0 }));
    assert!(square(1.0, 2.0).within(&square(0.0, 3.0)));
    let mut relations = FloatPredicateOverlay::with_subj_and_clip(&square(0.0, 1.0), &square(1.0, 2.0));
    assert!(relations.touches() && relations.point_intersects() && !relations.interiors_intersect());
    let line = [Place { east: -1.0, north: 0.5 }, Place { east: 4.0, north: 0.5 }];
    assert_eq!(square(0.0, 2.0).slice_by(&line, FillRule::EvenOdd).len(), 2);
    let inside = ClipRule {
        invert: false,
        boundary_included: false,
    };
    let kept = line.clip_by(&square(0.0, 2.0), FillRule::EvenOdd, inside);
    assert_eq!(
        kept,
        [[Place { east: 0.0, north: 0.5 }, Place { east: 2.0, north: 0.5 }]]
    );
}
