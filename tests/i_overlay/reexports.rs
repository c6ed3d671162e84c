//! Each constant and type that `i_overlay` passes on from the crates below, once by its path.

use i_overlay::edge_data::{EdgeDataMerge, OverlayEdgeData};
use i_overlay::edge_overlay::{EdgeOverlay, Edges, InputEdge};
use i_overlay::error::OverlayError;
use i_overlay::fill_rule::FillRule;
use i_overlay::i_float::int::number::int::IntNumber;
use i_overlay::i_float::int::number::uint::UIntNumber;
use i_overlay::i_float::int::number::wide_int::WideIntNumber;
use i_overlay::i_float::int::point::IntPoint;
use i_overlay::i_float::int::vector::IntVector;
use i_overlay::i_shape::flat::buffer::{FlatContoursBuffer, FlatShapesBuffer};
use i_overlay::i_shape::int::path::PathRef;
use i_overlay::i_shape::int::shape::{IntContour, IntShape};
use i_overlay::i_shape::source::int::resource::{BorrowedContours, BorrowedShapes};
use i_overlay::integer::{OverlayInt, in_range, is_resolved, is_resolved_in};
use i_overlay::overlay::{ContourDirection, IntOverlayOptions, ShapeType};
use i_overlay::overlay_rule::OverlayRule;
use i_overlay::point_location::{IntPointContainment, PointLocation};
use i_overlay::segm::boolean::ShapeCountBoolean;
use i_overlay::segm::string::ShapeCountString;
use i_overlay::solver::Solver;
use i_overlay::string::clip::{ClipRule, IntClip};
use i_overlay::string::overlay::StringOverlay;
use i_overlay::string::rule::StringRule;
use i_overlay::vector::edge::{
    CLIP_LEFT, CLIP_RIGHT, DataVectorEdge, DataVectorPath, DataVectorShape, Reverse, SUBJ_LEFT,
    SUBJ_RIGHT, SideFill, ToPath, VectorPath, VectorShape,
};
use std::alloc::Global;
use std::process::Abort;
use std::test::Fail;

// The bits of the sides: above a step from left to right is its left side.
#[test]
fn bits_of_the_sides(rt: HostRuntime) {
    let bits: [SideFill; 4] = [SUBJ_LEFT, SUBJ_RIGHT, CLIP_LEFT, CLIP_RIGHT];
    assert_eq!(&rt; bits, [1, 2, 4, 8]);
    let edge: DataVectorEdge<i32, ()> = DataVectorEdge {
        a: IntPoint::new(0, 0),
        b: IntPoint::new(1, 0),
        fill: SUBJ_RIGHT | CLIP_LEFT,
        edge_data: (),
    };
    assert_eq!(&rt; edge.fill, 6);
}

// The first of two coordinates, of any type of the trait's.
fn lesser<I: IntNumber>(x: I, y: I) -> I {
    if y.compare(x).is_lt() { y } else { x }
}

// Unmarked, as a number of any type of the trait's.
fn nothing<U: UIntNumber>() -> U {
    U::zero()
}

// Returns whether the product is below zero, of any type of the trait's.
fn is_negative<W: WideIntNumber>(product: W) -> bool {
    product.sign().is_lt()
}

// Returns whether the point is in the coordinate range of its type.
fn is_usable<I: OverlayInt>(point: IntPoint<I>) -> bool {
    in_range(&[point])
}

#[test]
fn traits_of_numbers(rt: HostRuntime) {
    assert_eq!(&rt; lesser(5i32, -3i32), -3);
    assert_eq!(&rt; lesser(5i64, 7i64), 5);
    assert_eq!(&rt; nothing::<u32>(), 0);
    assert_eq!(&rt; nothing::<u128>(), 0);
    assert!(&rt; is_usable(IntPoint::new(16383i16, 0)));
    assert!(&rt; !is_usable(IntPoint::new(16384i16, 0)));
    let cross = IntVector::new(2i32, 3).cross_product(IntVector::new(5, 7));
    assert_eq!(&rt; cross, -1);
    assert!(&rt; is_negative(cross));
}

// Returns whether a contour in range is resolved.
fn is_clean<I: OverlayInt>(rt: &impl Abort, contour: &[IntPoint<I>]) -> bool {
    assert!(rt; in_range(contour));
    is_resolved(contour)
}

#[test]
fn tests_of_contours(rt: HostRuntime) {
    let triangle = [
        IntPoint::new(0i32, 0),
        IntPoint::new(10, 0),
        IntPoint::new(0, 10),
    ];
    assert!(&rt; is_clean(&rt, &triangle));
    assert_eq!(&rt; is_resolved_in(rt.alloc(), &triangle), Ok(true));
    let (low, high) = (IntPoint::new(0i32, 0), IntPoint::new(10, 10));
    let bow = [low, high, IntPoint::new(10, 0), IntPoint::new(0, 10)];
    assert!(&rt; !is_clean(&rt, &bow));
    assert_eq!(&rt; is_resolved_in(rt.alloc(), &bow), Ok(false));
}

#[test]
fn rules_and_options(rt: HostRuntime) {
    let rules = [
        FillRule::EvenOdd,
        FillRule::NonZero,
        FillRule::Positive,
        FillRule::Negative,
    ];
    assert!(&rt; rules[1] == FillRule::NonZero);
    assert!(&rt; OverlayRule::Difference != OverlayRule::InverseDifference);
    assert!(&rt; ShapeType::Subject != ShapeType::Clip);
    let options: IntOverlayOptions<u64> = IntOverlayOptions::default();
    assert!(&rt; options.output_direction == ContourDirection::CounterClockwise);
    assert!(&rt; options.min_output_area == 0);
    assert!(&rt; Solver::ABSOLUTE == Solver::default());
    assert!(&rt; OverlayError::Memory != OverlayError::Failed);
}

// Data that says nothing.
#[derive(Debug, Clone, Copy, PartialEq, Eq)]
struct Unmarked;

// The counts of the left side of a merge.
fn left_count<D: Drop>(merge: EdgeDataMerge<ShapeCountBoolean, D>) -> ShapeCountBoolean {
    merge.lhs_count
}

// Returns whether the data stays as it is where its edge is split.
fn stays<D: OverlayEdgeData>(edge_data: D, store: &mut D::Store) -> bool {
    edge_data.split(store) == edge_data
}

#[test]
fn counts_and_data(rt: HostRuntime) {
    let count = ShapeCountBoolean { subj: 1, clip: -2 };
    let merge = EdgeDataMerge {
        lhs_count: count,
        rhs_count: ShapeCountBoolean { subj: 0, clip: 0 },
        lhs_data: Unmarked,
        rhs_data: Unmarked,
    };
    assert!(&rt; left_count(merge) == count);
    assert!(&rt; stays((), &mut ()));
    let string = ShapeCountString { subj: 1, clip: 2 };
    assert!(&rt; string.subj == 1 && string.clip == 2);
}

// Returns whether points may be located in it.
fn may_hold_points<R: IntPointContainment<i32>>(_holder: &R) -> bool {
    true
}

#[test]
fn points_in_contours(rt: HostRuntime) {
    let contour: Vec<IntPoint<i32>, Global> = Vec::new(rt.alloc());
    assert!(&rt; may_hold_points(&contour));
    assert!(&rt; may_hold_points(&PathRef::new(&contour)));
    let shape: Vec<IntContour<i32, Global>, Global> = Vec::new(rt.alloc());
    assert!(&rt; may_hold_points(&BorrowedContours { contours: &shape }));
    let shapes: Vec<IntShape<i32, Global>, Global> = Vec::new(rt.alloc());
    assert!(&rt; may_hold_points(&BorrowedShapes { shapes: &shapes }));
    assert!(&rt; PointLocation::Inside != PointLocation::Boundary);
}

#[test]
fn flat_buffers(rt: HostRuntime) -> Result<(), Fail> {
    let contours: FlatContoursBuffer<i32, Global> = FlatContoursBuffer::default(rt.alloc())?;
    assert!(&rt; !contours.is_single_contour());
    let shapes: FlatShapesBuffer<i32, Global> = FlatShapesBuffer::default(rt.alloc())?;
    assert_eq!(&rt; shapes.to_shapes()?.len(), 0);
    Ok(())
}

// Returns whether strings may be clipped by it.
fn may_clip<R: IntClip<i32>>(_shape: &R) -> bool {
    true
}

#[test]
fn strings(rt: HostRuntime) -> Result<(), Fail> {
    let contour: Vec<IntPoint<i32>, Global> = Vec::new(rt.alloc());
    assert!(&rt; may_clip(&contour));
    let rule = ClipRule {
        invert: true,
        boundary_included: false,
    };
    let overlay: StringOverlay<i32, Global> = StringOverlay::new(rt.alloc(), 0)?;
    let paths = overlay.clip_string_lines(FillRule::NonZero, rule)?;
    assert!(&rt; paths.is_empty());
    assert!(&rt; StringRule::Slice == StringRule::Slice);
    Ok(())
}

// Number of edges still to come.
fn count_of(edges: Edges<'_, i32, ()>) -> usize {
    let mut count: usize = 0;
    for _ in edges {
        count = count.saturating_add(1);
    }
    count
}

#[test]
fn edges_with_data(rt: HostRuntime) -> Result<(), Fail> {
    let overlay: EdgeOverlay<i32, (), Global> = EdgeOverlay::new(rt.alloc(), 1)?;
    assert_eq!(&rt; count_of(overlay.edges()), 0);
    let edge = InputEdge {
        a: IntPoint::new(2i32, 3),
        b: IntPoint::new(1, 0),
        edge_data: (),
    };
    let mut path: VectorPath<i32, Global> = Vec::new(rt.alloc());
    path.push(DataVectorEdge {
        a: edge.a,
        b: edge.b,
        fill: (SUBJ_RIGHT | CLIP_RIGHT).reverse(),
        edge_data: edge.edge_data,
    })?;
    assert_eq!(&rt; path[0].fill, SUBJ_LEFT | CLIP_LEFT);
    let points = path.to_path(rt.alloc())?;
    assert!(&rt; points.len() == 1 && points[0] == edge.a);
    Ok(())
}

// Number of contours of the shape.
fn contour_count<D: Drop>(shape: &DataVectorShape<i32, D, Global>) -> usize {
    shape.len()
}

#[test]
fn shapes_of_edges(rt: HostRuntime) -> Result<(), Fail> {
    let outline: DataVectorPath<i32, (), Global> = Vec::new(rt.alloc());
    let mut shape: VectorShape<i32, Global> = Vec::new(rt.alloc());
    shape.push(outline)?;
    assert_eq!(&rt; contour_count(&shape), 1);
    Ok(())
}
