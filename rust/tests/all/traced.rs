//! Edges that carry data, beside contours and beside what lies on what, counted by hand.

use super::common::{of, turned, Random};
use super::lists::{FILLS, RULES};
use polyover::core::edge_data::{EdgeDataMerge, OverlayEdgeData};
use polyover::core::edge_overlay::{EdgeOverlay, InputEdge};
use polyover::core::fill_rule::FillRule;
use polyover::core::integer::OverlayInt;
use polyover::core::overlay::{Overlay, ShapeType};
use polyover::core::overlay_rule::OverlayRule;
use polyover::core::solver::Solver;
use polyover::i_float::int::point::IntPoint;
use polyover::segm::boolean::ShapeCountBoolean;
use polyover::vector::edge::{DataVectorEdge, CLIP_LEFT, CLIP_RIGHT, SUBJ_LEFT, SUBJ_RIGHT};

const SIDES: [ShapeType; 2] = [ShapeType::Subject, ShapeType::Clip];

/// Sets of added edges, a bit for each: those that an edge lies on, of these those that were cut, and those that run
/// against it.
#[derive(Debug, Clone, Copy, PartialEq)]
struct Lies {
    on: u64,
    cut: u64,
    against: u64,
}

impl OverlayEdgeData for Lies {
    type Store = ();

    fn merge(merge: EdgeDataMerge<ShapeCountBoolean, Self>, _: &mut ()) -> Self {
        let (one, other) = (merge.lhs_data, merge.rhs_data);
        Lies {
            on: one.on | other.on,
            cut: one.cut | other.cut,
            against: one.against | other.against,
        }
    }

    fn split(self, _: &mut ()) -> Self {
        Lies { cut: self.on, ..self }
    }

    fn reversed(self, _: &mut ()) -> Self {
        let against = self.on ^ self.against;
        Lies { against, ..self }
    }
}

/// Whether a rule holds where the subject fills and the clip fills, or not.
fn holds(rule: OverlayRule, subject: bool, clip: bool) -> bool {
    match rule {
        OverlayRule::Subject => subject,
        OverlayRule::Clip => clip,
        OverlayRule::Intersect => subject && clip,
        OverlayRule::Union => subject || clip,
        OverlayRule::Difference => subject && !clip,
        OverlayRule::InverseDifference => clip && !subject,
        OverlayRule::Xor => subject != clip,
    }
}

/// Whether the rule holds on just one side of an edge.
fn is_selected(rule: OverlayRule, fill: u8) -> bool {
    let has = |bit: u8| fill & bit != 0;
    holds(rule, has(SUBJ_LEFT), has(CLIP_LEFT)) != holds(rule, has(SUBJ_RIGHT), has(CLIP_RIGHT))
}

/// The edges of contours, each with what the index of it makes.
fn edges_of<I: OverlayInt, D>(
    contours: &[Vec<IntPoint<I>>],
    mut data: impl FnMut(IntPoint<I>, IntPoint<I>) -> D,
) -> Vec<InputEdge<I, D>> {
    let mut edges = Vec::new();
    for contour in contours {
        for (&a, &b) in contour.iter().zip(contour.iter().cycle().skip(1)) {
            let data = data(a, b);
            edges.push(InputEdge { a, b, data });
        }
    }
    edges
}

/// One to three rectangles. Left and lower sides are at even numbers and the others at odd ones, so that no two edges
/// run there and back.
fn rectangles(random: &mut Random) -> Vec<Vec<[i16; 2]>> {
    let count = 1 + random.below(3);
    let mut span = || {
        let low = 2 * random.below(4) as i16;
        (low, low + 1 + 2 * random.below(4) as i16)
    };
    let rectangle = |_| {
        let ((left, right), (low, high)) = (span(), span());
        vec![[left, low], [right, low], [right, high], [left, high]]
    };
    (0..count).map(rectangle).collect()
}

/// How the edge lies on these: it is a piece of those along whose line it lies, within their ends.
fn lies(given: &[[IntPoint<i64>; 2]], a: IntPoint<i64>, b: IntPoint<i64>) -> Lies {
    let mut lies = Lies {
        on: 0,
        cut: 0,
        against: 0,
    };
    for (at, &[from, to]) in given.iter().enumerate() {
        let (low, high) = (from.min(to), from.max(to));
        let is_along = |p: IntPoint<i64>| (high.x - low.x) * (p.y - low.y) == (high.y - low.y) * (p.x - low.x);
        if is_along(a) && is_along(b) && low <= a && b <= high {
            lies.on |= 1 << at;
            lies.cut |= u64::from((low, high) != (a, b)) << at;
            lies.against |= u64::from(from > to) << at;
        }
    }
    lies
}

#[test]
fn edges_tell_on_which_they_lie() {
    let mut random = Random(3);
    let mut seen = 0;
    for _ in 0..200 {
        let (mut overlay, mut given) = (EdgeOverlay::new(24), Vec::new());
        for side in SIDES {
            let edges = edges_of(&of::<i64>(&rectangles(&mut random)), |a, b| {
                given.push([a, b]);
                Lies {
                    on: 1 << (given.len() - 1),
                    cut: 0,
                    against: 0,
                }
            });
            overlay.add_edges(edges, side);
        }
        for (rule, fill) in RULES.into_iter().zip(FILLS.into_iter().cycle()) {
            for solver in [Solver::SNAPPED, Solver::ROUNDS] {
                overlay.solver = solver;
                for DataVectorEdge { a, b, data, .. } in overlay.build_vectors(rule, fill) {
                    assert_eq!(data, lies(&given, a, b));
                    seen += 1;
                }
            }
        }
    }
    assert!(seen > 10_000);
}

/// Edges of contours have the arrangement and the shapes of these.
fn are_those_of_contours<I: OverlayInt + From<i16>>(
    random: &mut Random,
    reach: i16,
    rule: OverlayRule,
    fill: FillRule,
) {
    let (one, other) = (of::<I>(&random.contours(reach)), of::<I>(&random.contours(reach)));
    let mut edges = EdgeOverlay::new(0);
    for (contours, side) in [&one, &other].into_iter().zip(SIDES) {
        edges.add_edges(edges_of(contours, |_, _| ()), side);
    }
    let mut overlay = Overlay::from_subj_and_clip(&one, &other);
    for solver in [Solver::SNAPPED, Solver::ROUNDS] {
        (overlay.solver, edges.solver) = (solver, solver);
        for is_kept in [true, false] {
            edges.options.preserve_output_collinear = is_kept;
            overlay.options = edges.options;
            overlay.options.preserve_input_collinear = true;
            let shapes = overlay.try_build_shape_vectors(fill, rule).map(|it| turned(&it));
            let own = edges.try_build_vector_shapes(rule, fill).map(|it| turned(&it));
            assert_eq!(own, shapes);
            let view = overlay.try_build_graph_view(fill);
            let viewed = view.and_then(|it| it.map_or(Ok(Vec::new()), |it| it.try_extract_vector_shapes(rule)));
            assert_eq!(viewed.map(|it| turned(&it)), shapes);
        }
        let mut selected = overlay.try_build_separate_vectors(fill);
        if let Ok(all) = &mut selected {
            all.retain(|it| is_selected(rule, it.fill));
        }
        assert_eq!(edges.try_build_vectors(rule, fill), selected);
    }
}

#[test]
fn edges_of_contours() {
    let mut random = Random(11);
    for turn in 0..56 {
        let reach = [3, 8, 100, i16::MAX][turn / 7 % 4];
        let (rule, fill) = (RULES[turn % 7], FILLS[turn / 2 % 4]);
        are_those_of_contours::<i16>(&mut random, reach, rule, fill);
        are_those_of_contours::<i32>(&mut random, reach, rule, fill);
        are_those_of_contours::<i64>(&mut random, reach, rule, fill);
    }
}
