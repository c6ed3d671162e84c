//! Edges that carry data: values by hand.

use polyover::core::edge_data::{EdgeDataMerge, OverlayEdgeData};
use polyover::core::edge_overlay::{EdgeOverlay, InputEdge};
use polyover::core::fill_rule::FillRule;
use polyover::core::integer::OverlayInt;
use polyover::core::overlay::{ContourDirection, IntOverlayOptions, ShapeType};
use polyover::core::overlay_rule::OverlayRule;
use polyover::core::solver::Solver;
use polyover::error::OverlayError;
use polyover::i_float::int::point::IntPoint;
use polyover::segm::boolean::ShapeCountBoolean;
use polyover::vector::edge::DataVectorEdge;

/// What was done with the data of an edge, in order, as digits of a number: 1 where it was reversed, 2 where it was
/// split; and the edges that it comes from, a bit for each.
#[derive(Debug, Clone, Copy, PartialEq, Eq)]
struct Done {
    bits: u8,
    steps: u32,
}

/// The counts that were merged.
#[derive(Debug, Default, PartialEq)]
struct Merged(Vec<[i32; 4]>);

impl OverlayEdgeData for Done {
    type Store = Merged;

    fn merge(merge: EdgeDataMerge<ShapeCountBoolean, Self>, store: &mut Merged) -> Self {
        let (one, other) = (merge.lhs_count, merge.rhs_count);
        store.0.push([one.subj, one.clip, other.subj, other.clip]);
        Done {
            bits: merge.lhs_data.bits | merge.rhs_data.bits,
            steps: merge.lhs_data.steps.max(merge.rhs_data.steps),
        }
    }

    fn split(self, _: &mut Merged) -> Self {
        let steps = 10 * self.steps + 2;
        Done { steps, ..self }
    }

    fn reversed(self, _: &mut Merged) -> Self {
        let steps = 10 * self.steps + 1;
        Done { steps, ..self }
    }
}

fn edge<I: OverlayInt, D>(a: [I; 2], b: [I; 2], data: D) -> InputEdge<I, D> {
    let (a, b) = (a.into(), b.into());
    InputEdge { a, b, data }
}

fn numbered(a: [i32; 2], b: [i32; 2], number: u8) -> InputEdge<i32, Done> {
    let bits = 1 << number;
    edge(a, b, Done { bits, steps: 0 })
}

/// The edges round a contour, with equal data.
fn round<I: OverlayInt, D: Copy, const N: usize>(corners: [[I; 2]; N], data: D) -> Vec<InputEdge<I, D>> {
    let next = corners.iter().cycle().skip(1);
    corners.iter().zip(next).map(|(&a, &b)| edge(a, b, data)).collect()
}

/// Ends, filled sides and data.
fn told<D: Copy>(edges: &[DataVectorEdge<i32, D>]) -> Vec<([i32; 2], [i32; 2], u8, D)> {
    let told = |it: &DataVectorEdge<i32, D>| (it.a.into(), it.b.into(), it.fill, it.data);
    edges.iter().map(told).collect()
}

/// A kind of an edge; two that differ are merged to none.
#[derive(Debug, Clone, Copy, PartialEq, Eq)]
enum Kind {
    Red,
    Green,
    Neither,
}

impl OverlayEdgeData for Kind {
    type Store = ();

    fn merge(merge: EdgeDataMerge<ShapeCountBoolean, Self>, _: &mut ()) -> Self {
        if merge.lhs_data == merge.rhs_data {
            merge.lhs_data
        } else {
            Kind::Neither
        }
    }
}

/// The place of a square. No edges of two squares are merged to one that stays.
#[derive(Debug, Clone, Copy, PartialEq, Eq)]
struct Place(i32);

impl OverlayEdgeData for Place {
    type Store = ();

    fn merge(_: EdgeDataMerge<ShapeCountBoolean, Self>, _: &mut ()) -> Self {
        Place(-1)
    }
}

#[test]
fn kinds_of_edges() {
    use Kind::{Green, Neither, Red};
    let wanted = [
        ([0, 4], [0, 0], 1, Red),
        ([0, 0], [2, 0], 1, Red),
        ([2, 0], [4, 0], 5, Neither),
        ([4, 0], [6, 0], 4, Green),
        ([6, 0], [6, 4], 4, Green),
        ([6, 4], [4, 4], 4, Green),
        ([4, 4], [2, 4], 5, Neither),
        ([2, 4], [0, 4], 1, Red),
    ];
    let mut overlay = EdgeOverlay::new(8);
    overlay.add_edges(round([[0, 0], [4, 0], [4, 4], [0, 4]], Red), ShapeType::Subject);
    overlay.add_edges(round([[2, 0], [6, 0], [6, 4], [2, 4]], Green), ShapeType::Clip);
    for solver in [Solver::SNAPPED, Solver::ROUNDS] {
        overlay.solver = solver;
        let shapes = overlay.build_vector_shapes(OverlayRule::Union, FillRule::NonZero);
        assert_eq!((shapes.len(), shapes[0].len()), (1, 1));
        assert_eq!(told(&shapes[0][0]), wanted);
    }
    // (the same the other way: filled sides turn)
    overlay.options.output_direction = ContourDirection::Clockwise;
    let shapes = overlay.build_vector_shapes(OverlayRule::Union, FillRule::NonZero);
    let turned = |&(a, b, fill, kind): &([i32; 2], [i32; 2], u8, Kind)| (b, a, fill << 1, kind);
    let mut back = told(&shapes[0][0]);
    back.sort_by_key(|it| it.0);
    let mut wanted_back: Vec<_> = wanted.iter().map(turned).collect();
    wanted_back.sort_by_key(|it| it.0);
    assert_eq!(back, wanted_back);
}

/// Two squares that share the one from (2, 2) to (4, 4): the edges of the shared one are cut, and two of them run
/// against the edges that were added.
#[test]
fn edges_are_reversed_and_split() {
    let mut overlay = EdgeOverlay::new(8);
    let one = Done { bits: 1, steps: 0 };
    let other = Done { bits: 2, steps: 0 };
    overlay.add_edges(round([[0, 0], [4, 0], [4, 4], [0, 4]], one), ShapeType::Subject);
    overlay.add_edges(round([[2, 2], [6, 2], [6, 6], [2, 6]], other), ShapeType::Clip);
    let done = |bits, steps| Done { bits, steps };
    for solver in [Solver::SNAPPED, Solver::ROUNDS] {
        overlay.solver = solver;
        let edges = overlay.build_vectors(OverlayRule::Intersect, FillRule::NonZero);
        let wanted = [
            ([2, 2], [2, 4], 11, done(2, 12)),
            ([2, 2], [4, 2], 7, done(2, 2)),
            ([2, 4], [4, 4], 14, done(1, 12)),
            ([4, 2], [4, 4], 13, done(1, 2)),
        ];
        assert_eq!(told(&edges), wanted);
        let shapes = overlay.build_vector_shapes(OverlayRule::Intersect, FillRule::NonZero);
        // (walked from their larger ends two are reversed once more)
        let wanted = [
            ([2, 4], [2, 2], 7, done(2, 121)),
            ([2, 2], [4, 2], 7, done(2, 2)),
            ([4, 2], [4, 4], 13, done(1, 2)),
            ([4, 4], [2, 4], 13, done(1, 121)),
        ];
        assert_eq!(told(&shapes[0][0]), wanted);
    }
    assert_eq!(overlay.data_store(), &Merged::default());
    let ends: Vec<_> = overlay.edges().take(4).map(|it| it.map(<[i32; 2]>::from)).collect();
    assert_eq!(
        ends,
        [[[0, 0], [4, 0]], [[4, 0], [4, 4]], [[0, 4], [4, 4]], [[0, 0], [0, 4]]]
    );
}

/// Edges that lie on one another are merged, with their counts; they need not make contours.
#[test]
fn edges_on_one_line() {
    let mut overlay = EdgeOverlay::new(0);
    overlay.add_edge(numbered([0, 0], [4, 0], 0), ShapeType::Subject);
    overlay.add_edge(numbered([5, 5], [5, 5], 3), ShapeType::Subject);
    overlay.add_edge(numbered([6, 0], [2, 0], 1), ShapeType::Clip);
    assert_eq!(overlay.edges().count(), 2);
    let edges = overlay.build_vectors(OverlayRule::Union, FillRule::NonZero);
    let bits: Vec<u8> = edges.iter().map(|it| it.data.bits).collect();
    let ends: Vec<[i32; 2]> = edges.iter().map(|it| [it.a.x, it.b.x]).collect();
    assert_eq!((ends, bits), (vec![[0, 2], [2, 4], [4, 6]], vec![1, 3, 2]));
    // (the subject passes the middle once along it, the clip once against it)
    let merged = overlay.into_data_store().0;
    assert!(merged == [[1, 0, 0, -1]] || merged == [[0, -1, 1, 0]]);
    let mut three = EdgeOverlay::new(3);
    for number in 0..3 {
        three.add_edge(numbered([0, 0], [1, 0], number), ShapeType::Subject);
    }
    three.data_store_mut().0.push([0; 4]);
    // (it is passed three times)
    let edges = three.build_vectors(OverlayRule::Subject, FillRule::EvenOdd);
    assert_eq!(told(&edges), [([0, 0], [1, 0], 1, Done { bits: 7, steps: 0 })]);
    assert_eq!(three.data_store().0[..2], [[0; 4], [1, 0, 1, 0]]);
    assert!([[2, 0, 1, 0], [1, 0, 2, 0]].contains(&three.data_store().0[2]));
}

/// An edge there and back, and its count under each rule.
#[test]
fn lone_edges() {
    let mut overlay = EdgeOverlay::new(1);
    overlay.add_edge(edge([0, 0], [1, 0], ()), ShapeType::Subject);
    let edges = overlay.build_vectors(OverlayRule::Subject, FillRule::EvenOdd);
    assert_eq!(told(&edges), [([0, 0], [1, 0], 1, ())]);
    assert!(overlay.build_vectors(OverlayRule::Clip, FillRule::EvenOdd).is_empty());
    assert!(overlay
        .build_vectors(OverlayRule::Subject, FillRule::Negative)
        .is_empty());
    overlay.add_edge(edge([1, 0], [0, 0], ()), ShapeType::Subject);
    assert!(overlay
        .build_vectors(OverlayRule::Subject, FillRule::EvenOdd)
        .is_empty());
    assert!(overlay
        .build_vector_shapes(OverlayRule::Subject, FillRule::EvenOdd)
        .is_empty());
}

/// Neighbours on one line are joined where their filled sides and their data are equal.
#[test]
fn edges_are_joined() {
    for (second, kept, joined) in [(Kind::Green, 5, 5), (Kind::Red, 5, 4)] {
        let mut overlay = EdgeOverlay::new(5);
        overlay.add_edge(edge([0, 0], [2, 0], Kind::Red), ShapeType::Subject);
        overlay.add_edge(edge([2, 0], [4, 0], second), ShapeType::Subject);
        let rest = round([[0, 0], [4, 0], [4, 4], [0, 4]], Kind::Red);
        overlay.add_edges(rest.into_iter().skip(1), ShapeType::Subject);
        let count = |overlay: &mut EdgeOverlay<i32, Kind>| {
            let shapes = overlay.build_vector_shapes(OverlayRule::Subject, FillRule::NonZero);
            assert_eq!((shapes.len(), shapes[0].len()), (1, 1));
            shapes[0][0].len()
        };
        assert_eq!(count(&mut overlay), kept);
        overlay.options = IntOverlayOptions::default();
        assert_eq!(count(&mut overlay), joined);
        overlay.options.min_output_area = 16;
        assert_eq!(count(&mut overlay), joined);
        overlay.options.min_output_area = 17;
        let none = overlay.build_vector_shapes(OverlayRule::Subject, FillRule::NonZero);
        assert!(none.is_empty());
    }
}

/// A row of squares, whose sides within it run there and back: the steps round it come from as many squares.
#[test]
fn many_edges() {
    const COUNT: i32 = 5000;
    let mut overlay = EdgeOverlay::new(20_000);
    let mut bare = EdgeOverlay::new(20_000);
    for x in 0..COUNT {
        let corners = [[x, 0], [x + 1, 0], [x + 1, 1], [x, 1]];
        overlay.add_edges(round(corners, Place(x)), ShapeType::Subject);
        bare.add_edges(round(corners, ()), ShapeType::Subject);
    }
    overlay.options = IntOverlayOptions::default();
    bare.options = IntOverlayOptions::default();
    let shapes = overlay.build_vector_shapes(OverlayRule::Subject, FillRule::NonZero);
    assert_eq!((shapes.len(), shapes[0].len()), (1, 1));
    // (each square has two of these steps, and the first and the last one have three)
    assert_eq!(shapes[0][0].len(), 10_002);
    assert!(shapes[0][0]
        .iter()
        .all(|it| it.data.0 == it.a.x.min(it.b.x).min(COUNT - 1)));
    assert_eq!(
        bare.build_vector_shapes(OverlayRule::Subject, FillRule::NonZero)[0][0].len(),
        4
    );
}

/// A contour that crosses itself, and one that shares a corner with it.
#[test]
fn walks_that_cross() {
    let mut overlay = EdgeOverlay::new(8);
    overlay.add_edges(round([[0, 0], [4, 4], [4, 0], [0, 4]], Kind::Red), ShapeType::Subject);
    let other = round([[0, 0], [-4, 0], [-4, -4], [0, -4]], Kind::Green);
    overlay.add_edges(other, ShapeType::Subject);
    let shapes = overlay.build_vector_shapes(OverlayRule::Subject, FillRule::EvenOdd);
    let steps: Vec<_> = shapes.iter().flatten().flatten().collect();
    // (two triangles that meet in (2, 2), and a square)
    assert_eq!(steps.len(), 10);
    assert_eq!(steps.iter().filter(|it| it.data == Kind::Red).count(), 6);
}

#[test]
fn refused_edges() {
    let mut open = EdgeOverlay::new(1);
    open.add_edge(edge([0, 0], [4, 0], ()), ShapeType::Subject);
    open.add_edge(edge([4, 0], [0, 0], ()), ShapeType::Clip);
    // (neither closes the other: they are of two sides)
    let refused = open.try_build_vector_shapes(OverlayRule::Union, FillRule::NonZero);
    assert_eq!(refused, Err(OverlayError::NotClosed));
    assert_eq!(open.build_vectors(OverlayRule::Union, FillRule::NonZero).len(), 1);
    let mut wide = EdgeOverlay::new(1);
    wide.add_edge(edge([1 << 62, 0], [0, 1_i64], ()), ShapeType::Clip);
    let refused = wide.try_build_vectors(OverlayRule::Clip, FillRule::NonZero);
    assert_eq!(refused, Err(OverlayError::OutOfRange));
    // (needles that rounds do not settle)
    let mut needles = EdgeOverlay::new(6);
    for corners in [[[2, 0], [0, 66], [2, -66]], [[1, 0], [0, 67], [-1, 0]]] {
        needles.add_edges(round::<i32, (), 3>(corners, ()), ShapeType::Subject);
    }
    needles.solver = Solver::ROUNDS;
    let refused = needles.try_build_vectors(OverlayRule::Subject, FillRule::NonZero);
    assert_eq!(refused, Err(OverlayError::NotSettled));
    let refused = needles.try_build_vector_shapes(OverlayRule::Subject, FillRule::NonZero);
    assert_eq!(refused, Err(OverlayError::NotSettled));
}

#[test]
#[should_panic(expected = "polyover: the edges of the subject, or those of the clip, do not make contours")]
fn shapes_of_open_edges_panic() {
    let mut open = EdgeOverlay::new(1);
    open.add_edge(edge([0_i16, 0], [4, 0], ()), ShapeType::Clip);
    open.build_vector_shapes(OverlayRule::Clip, FillRule::EvenOdd);
}

/// All `i16` and `i32` are in the range, and `i64` up to its end.
#[test]
fn ends_of_the_range() {
    fn far<I: OverlayInt + std::fmt::Debug>(low: I, zero: I, high: I) {
        let mut overlay = EdgeOverlay::new(4);
        let corners = [[low, low], [high, low], [high, high], [low, high]];
        overlay.add_edges(round(corners, Kind::Red), ShapeType::Subject);
        overlay.add_edge(edge([zero, low], [zero, high], Kind::Green), ShapeType::Clip);
        // (two sides are cut)
        let edges = overlay.build_vectors(OverlayRule::Union, FillRule::NonZero);
        assert_eq!(edges.len(), 6);
        assert!(edges.iter().all(|it| it.data == Kind::Red));
        assert_eq!(edges[0].a, IntPoint::new(low, low));
    }
    const MAX: i64 = (1 << 62) - 1;
    far(i16::MIN, 0, i16::MAX);
    far(i32::MIN, 0, i32::MAX);
    far(-MAX, 0, MAX);
}
