//! Builders, their views, and options that are not had.

use super::common::square;
use super::lists::RULES;
use polyover::core::fill_rule::FillRule;
use polyover::core::hierarchy::ChildLink;
use polyover::core::overlay::{ContourDirection, IntOverlayOptions, Overlay, ShapeType};
use polyover::core::overlay_rule::OverlayRule;
use polyover::core::solver::Solver;
use polyover::error::OverlayError;
use polyover::i_float::int::point::IntPoint;
use polyover::i_shape::flat::buffer::FlatContoursBuffer;
use polyover::i_shape::int::area::Area;
use polyover::string::clip::{ClipRule, IntClip};
use polyover::string::overlay::StringOverlay;
use polyover::string::rule::StringRule;
use polyover::string::slice::IntSlice;
use polyover::vector::edge::{Reverse, ToPath, CLIP_LEFT, SUBJ_LEFT, SUBJ_RIGHT};

fn two_squares() -> Overlay<i32> {
    Overlay::from_subj_and_clip(&square(0, 10), &square(5, 15))
}

#[test]
fn queries_keep_what_was_added() {
    let mut overlay = two_squares();
    let areas = RULES.map(|it| overlay.overlay(it, FillRule::NonZero).area());
    assert_eq!(areas, [100_i64, 100, 25, 175, 75, 75, 150]);
    let view = overlay.build_graph_view(FillRule::NonZero).unwrap();
    let areas = RULES.map(|it| view.extract_shapes(it, &mut Default::default()).area());
    assert_eq!(areas, [100_i64, 100, 25, 175, 75, 75, 150]);
    overlay.clear();
    assert!(overlay.build_graph_view(FillRule::NonZero).is_none());
    assert!(overlay.overlay(OverlayRule::Union, FillRule::NonZero).is_empty());
}

#[test]
fn vectors_tell_filled_sides() {
    let mut overlay = two_squares();
    let shapes = overlay.build_shape_vectors(FillRule::NonZero, OverlayRule::Intersect);
    let corners = [[5, 10], [5, 5], [10, 5], [10, 10]].map(IntPoint::from);
    assert_eq!(shapes[0][0].to_path(), corners);
    let fills: Vec<u8> = shapes[0][0].iter().map(|it| it.fill).collect();
    // (down and to the right the clip begins, then the subject ends)
    let (clip, subject) = (CLIP_LEFT | SUBJ_LEFT | SUBJ_RIGHT, SUBJ_LEFT | CLIP_LEFT | 8);
    assert_eq!(fills, [clip, clip, subject, subject]);
    assert_eq!(SUBJ_LEFT.reverse(), SUBJ_RIGHT);
    let view = overlay.build_graph_view(FillRule::NonZero).unwrap();
    assert_eq!(
        view.extract_vector_shapes(OverlayRule::Intersect, &mut Default::default()),
        shapes
    );
    let again = view.extract_vector_shapes_with_store(OverlayRule::Intersect, &mut Default::default(), &mut ());
    assert_eq!(again, shapes);
    // (each square has 4 edges, two of which are cut once)
    assert_eq!(view.edges().len(), 12);
    assert_eq!(view.extract_separate_vectors(), view.edges());
    assert_eq!(view.extract_vectors(), view.edges());
    assert_eq!(view.extract_vectors_with_store(&mut ()), view.edges());
}

#[test]
fn options_change_answers() {
    let mut overlay = two_squares();
    overlay.options.output_direction = ContourDirection::Clockwise;
    assert_eq!(
        overlay.overlay(OverlayRule::Intersect, FillRule::NonZero).area(),
        -25_i64
    );
    overlay.options.min_output_area = 26;
    assert!(overlay.overlay(OverlayRule::Intersect, FillRule::NonZero).is_empty());
    overlay.options = IntOverlayOptions::keep_output_points();
    // (the corners (5, 10) and (10, 5) of the shared square lie on sides of the subject)
    assert_eq!(overlay.overlay(OverlayRule::Subject, FillRule::NonZero)[0][0].len(), 6);
}

#[test]
fn links_tell_which_shapes_lie_in_which_holes() {
    let nested = [
        square(0, 100),
        square(10, 90),
        square(20, 80),
        square(30, 70),
        square(40, 60),
    ];
    let found = Overlay::from_subj(&nested).overlay_hierarchy(OverlayRule::Subject, FillRule::EvenOdd);
    // (each shape but the innermost has one hole, so the contours are outline, hole, outline, hole, outline)
    let link = |parent_shape_index, parent_contour_index, child_shape_index| ChildLink {
        parent_shape_index,
        parent_contour_index,
        child_shape_index,
    };
    assert_eq!(found.links, [link(0, 1, 1), link(1, 3, 2)]);
    assert_eq!(found.shapes.shape_ranges, [0..2, 2..4, 4..5]);
    assert_eq!(found.shapes.contour_ranges[3], 12..16);
}

/// A point in the middle of a side is a node of the arrangement where given points are kept.
#[test]
fn views_keep_given_points() {
    let given = [[0, 0], [2, 0], [4, 0], [4, 4], [0, 4]].map(IntPoint::from);
    let (rule, fill) = (OverlayRule::Subject, FillRule::NonZero);
    let mut overlay = Overlay::<i32>::from_subj(&given);
    assert_eq!(overlay.build_separate_vectors(fill).len(), 4);
    assert_eq!(overlay.build_graph_view(fill).unwrap().edges().len(), 4);
    overlay.options = IntOverlayOptions::keep_all_points();
    assert_eq!(overlay.build_separate_vectors(fill).len(), 5);
    assert_eq!(overlay.build_shape_vectors(fill, rule)[0][0].len(), 5);
    let view = overlay.build_graph_view(fill).unwrap();
    assert_eq!(view.edges().len(), 5);
    assert_eq!(view.extract_shapes(rule, &mut Default::default())[0][0].len(), 5);
    overlay.options.preserve_output_collinear = false;
    let view = overlay.build_graph_view(fill).unwrap();
    assert_eq!(view.edges().len(), 5);
    assert_eq!(view.extract_shapes(rule, &mut Default::default())[0][0].len(), 4);
}

/// The square of 20 by 20 in halves of 200.
#[test]
fn slices_by_options() {
    let mut overlay = StringOverlay::from_shape(&square(-10, 10));
    overlay.add_string_line([[-20, 0], [20, 0]].map(IntPoint::from));
    let view = overlay.build_graph_view(FillRule::NonZero).unwrap();
    let areas = |options: IntOverlayOptions<u64>| {
        let shapes = view.extract_shapes_custom(StringRule::Slice, options);
        shapes.iter().map(|it| it[0].area()).collect::<Vec<i64>>()
    };
    let mut options = IntOverlayOptions::default();
    assert_eq!(areas(options), [200, 200]);
    options.output_direction = ContourDirection::Clockwise;
    assert_eq!(areas(options), [-200, -200]);
    options.min_output_area = 200;
    assert_eq!(areas(options), [-200, -200]);
    options.min_output_area = 201;
    assert!(areas(options).is_empty());
    // (slices keep all points, and visit none twice)
    assert_eq!(areas(IntOverlayOptions::keep_output_points()), [200, 200]);
    assert_eq!(areas(IntOverlayOptions::ogc()), [200, 200]);
}

/// A simple contour is answered so whatever the smallest area is, a contour that crosses itself as by an overlay.
#[test]
fn simple_contours_whatever_the_smallest_area() {
    let (fill, shape) = (FillRule::NonZero, square(0, 4));
    let bow = [[0, 0], [4, 4], [4, 0], [0, 4]].map(IntPoint::from);
    let mut overlay = Overlay::<i32>::new(0);
    overlay.options.min_output_area = 17;
    assert_eq!(overlay.simplify_contour(&shape, fill), None);
    assert_eq!(overlay.simplify_shape(&[shape.to_vec()], fill), None);
    assert_eq!(overlay.simplify_contour(&bow, fill), Some(vec![]));
    assert_eq!(overlay.simplify_contour(&shape, FillRule::Negative), Some(vec![]));
    overlay.options.output_direction = ContourDirection::Clockwise;
    let turned: Vec<_> = shape.iter().rev().copied().collect();
    assert_eq!(overlay.simplify_contour(&shape, fill), Some(vec![vec![turned.clone()]]));
    let mut buffer = FlatContoursBuffer::default();
    buffer.add_contour(&shape);
    overlay.simplify_flat_buffer(&mut buffer, fill);
    assert_eq!(buffer.as_first_contour(), turned);
    overlay.options.output_direction = ContourDirection::CounterClockwise;
    overlay.options.min_output_area = 4;
    assert_eq!(overlay.simplify_contour(&bow, fill).map(|it| it.len()), Some(2));
}

#[test]
fn options_of_strings_are_refused() {
    let rule = StringRule::Slice;
    let names = [
        "preserve_input_collinear",
        "output_direction",
        "preserve_output_collinear",
        "min_output_area",
        "ogc",
    ];
    for (at, name) in names.into_iter().enumerate() {
        let options = IntOverlayOptions {
            preserve_input_collinear: at == 0,
            output_direction: [ContourDirection::CounterClockwise, ContourDirection::Clockwise][usize::from(at == 1)],
            preserve_output_collinear: at == 2,
            min_output_area: u64::from(at == 3),
            ogc: at == 4,
        };
        let mut overlay = StringOverlay::from_shape(&square(0, 10));
        let view = overlay.build_graph_view(FillRule::NonZero).unwrap();
        assert_eq!(view.extract_shapes(rule).area(), 100_i64);
        let custom = view.try_extract_shapes_custom(rule, options);
        assert_eq!(
            custom.err(),
            (at == 0).then_some(OverlayError::NotHad("preserve_input_collinear"))
        );
        overlay.options = options;
        assert_eq!(
            overlay.try_slice(FillRule::NonZero, Solver::default()),
            Err(OverlayError::NotHad(name))
        );
    }
    let text = "this version does not have the option preserve_input_collinear";
    assert_eq!(OverlayError::NotHad("preserve_input_collinear").to_string(), text);
}

#[test]
fn lines_over_a_square() {
    let shape = square(-10, 10);
    let inside = ClipRule {
        invert: false,
        boundary_included: false,
    };
    let line = [[0, -15], [0, 15]].map(IntPoint::from);
    let kept = [[0, -10], [0, 10]].map(IntPoint::from);
    assert_eq!(shape.clip_line(line, FillRule::NonZero, inside), [kept]);
    let outside = ClipRule { invert: true, ..inside };
    assert_eq!(shape.clip_lines(&[line], FillRule::NonZero, outside).len(), 2);
    assert_eq!(shape.slice_by_line(line, FillRule::NonZero).area(), 400_i64);
    assert_eq!(shape.slice_by_line(line, FillRule::NonZero).len(), 2);
}

/// A point in the middle of a side stays where given points are kept, and those of answers too.
#[test]
fn given_points_are_kept() {
    let given = [[0, 0], [2, 0], [4, 0], [4, 4], [0, 4]].map(IntPoint::from);
    let (rule, fill) = (OverlayRule::Subject, FillRule::NonZero);
    let count = |options: IntOverlayOptions<u64>| {
        let mut overlay = Overlay::<i32>::from_subj(&given);
        overlay.options = options;
        let shapes = overlay.try_overlay(rule, fill).unwrap();
        assert_eq!(
            overlay.try_overlay_hierarchy(rule, fill).unwrap().shapes.points.len(),
            shapes[0][0].len()
        );
        shapes[0][0].len()
    };
    let input = IntOverlayOptions {
        preserve_input_collinear: true,
        ..IntOverlayOptions::default()
    };
    assert_eq!(count(IntOverlayOptions::default()), 4);
    assert_eq!(count(IntOverlayOptions::keep_output_points()), 4);
    assert_eq!(count(input), 4);
    assert_eq!(count(IntOverlayOptions::keep_all_points()), 5);
    // (the contour is simple as it is given)
    let mut overlay = Overlay::<i32>::new(0);
    assert_eq!(overlay.simplify_contour(&given, fill).map(|it| it[0][0].len()), Some(4));
    overlay.options = input;
    assert_eq!(overlay.simplify_contour(&given, fill), None);
}

/// Tiles at each width, and grids that do not fit.
#[test]
fn a_square_in_cells() {
    let shape = square(0, 4);
    let quarters = shape.slice_by_grid(2, 2, FillRule::NonZero);
    assert_eq!(quarters.len(), 4);
    assert!(quarters.iter().all(|tile| tile.area() == 4_i64));
    assert_eq!(shape.slice_by_grid(i32::MAX, 3, FillRule::NonZero).len(), 2);
    let small = [[0_i16, 0], [4, 0], [4, 4], [0, 4]].map(IntPoint::from);
    assert_eq!(small.slice_by_grid(i16::MAX, 1, FillRule::NonZero).len(), 4);
    // (beyond the range of the calls at 32 bits)
    let wide = square(i32::MIN, i32::MAX);
    assert_eq!(wide.slice_by_grid(i32::MAX, i32::MAX, FillRule::NonZero).len(), 9);
    let long = [[0_i64, 0], [1002, 0], [1002, 1], [0, 1]].map(IntPoint::from);
    assert_eq!(long.slice_by_grid(2, i64::MAX, FillRule::NonZero).len(), 501);
    for (width, height) in [(1, 1), (0, 1), (2, -1)] {
        let answer = long.try_slice_by_grid(width, height, FillRule::NonZero);
        assert_eq!(answer, Err(OverlayError::BadGrid));
    }
    assert!(OverlayError::BadGrid.to_string().contains("grid"));
    let beyond = [[0_i64, 0], [i64::MAX, 0], [0, 1]].map(IntPoint::from);
    assert_eq!(
        beyond.try_slice_by_grid(1, 1, FillRule::NonZero),
        Err(OverlayError::OutOfRange)
    );
}

#[test]
fn the_outcome_of_a_contour_is_told() {
    let mut overlay = Overlay::<i32>::new(0);
    let (simple, mut turned) = (square(0, 10), square(0, 10));
    turned.reverse();
    // (of a simple contour the smallest area plays no part)
    overlay.options.min_output_area = 1000;
    assert_eq!(overlay.simplify_contour(&simple, FillRule::NonZero), None);
    assert_eq!(
        overlay.simplify_contour(&turned, FillRule::NonZero),
        Some(vec![vec![simple.clone()]])
    );
    assert_eq!(overlay.simplify_contour(&simple, FillRule::Negative), Some(vec![]));
    // (one that touches itself comes back point by point, and is not simple: it is too small)
    let touching = [[0, 4], [0, 0], [2, 2], [4, 0], [4, 4], [2, 2]].map(IntPoint::from);
    assert_eq!(overlay.simplify_contour(&touching, FillRule::NonZero), Some(vec![]));
    // (so is one with a point on one line)
    let straight = [[0, 4], [0, 0], [2, 0], [4, 0], [4, 4]].map(IntPoint::from);
    assert_eq!(overlay.simplify_contour(&straight, FillRule::NonZero), Some(vec![]));
    assert_eq!(overlay.simplify_contour(&[], FillRule::NonZero), Some(vec![]));
    let mut buffer = FlatContoursBuffer::default();
    buffer.set_with_contour(&turned);
    overlay.simplify_flat_buffer(&mut buffer, FillRule::NonZero);
    assert_eq!(buffer.as_first_contour(), simple);
    buffer.set_with_contour(&touching);
    overlay.simplify_flat_buffer(&mut buffer, FillRule::NonZero);
    assert!(buffer.ranges.is_empty() && buffer.points.is_empty());
}

#[test]
fn adding_by_type() {
    let mut overlay = Overlay::new(8);
    overlay.add_path_iter(square(0, 4).into_iter(), ShapeType::Subject);
    overlay.add_contour(&square(1, 2), ShapeType::Clip);
    overlay.try_add_source(&[square(6, 8)], ShapeType::Clip).unwrap();
    assert_eq!(overlay.overlay(OverlayRule::Union, FillRule::NonZero).area(), 20_i64);
    let point: IntPoint = (1, 2).into();
    assert_eq!((<[i32; 2]>::from(point), <(i32, i32)>::from(point)), ([1, 2], (1, 2)));
}
