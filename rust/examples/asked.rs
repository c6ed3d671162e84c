//! Answers requests on standard input, to be compared with those of C (`tests/asked.py`): a line with a call and its
//! options as numbers, and a line for each of two lists of paths, as `x,y x,y;x,y`.
#![allow(missing_docs, clippy::unwrap_used, clippy::indexing_slicing, clippy::panic)]

use polyover::core::edge_data::{EdgeDataMerge, OverlayEdgeData};
use polyover::core::edge_overlay::{EdgeOverlay, InputEdge};
use polyover::core::exact::ExactPredicates;
use polyover::core::fill_rule::FillRule;
use polyover::core::overlay::{ContourDirection, IntOverlayOptions, Overlay, ShapeType};
use polyover::core::overlay_rule::OverlayRule;
use polyover::core::point_location::{IntPointContainment, PointLocation};
use polyover::core::relate::{PredicateOverlay, Relations};
use polyover::core::solver::Solver;
use polyover::error::OverlayError;
use polyover::i_float::int::point::IntPoint;
use polyover::prepared::{ExactShape, PreparedShape};
use polyover::segm::boolean::ShapeCountBoolean;
use polyover::string::{clip::ClipRule, overlay::StringOverlay};

#[path = "../tests/all/lists.rs"]
mod lists;
use lists::{holding, FILLS, RULES};

type Path = Vec<IntPoint<i64>>;

/// Given steps on which an edge lies, a bit for each: of these those that were cut, and those that run against it.
#[derive(Clone, Copy, PartialEq)]
struct Lies([u128; 3]);

impl OverlayEdgeData for Lies {
    type Store = ();

    fn merge(merge: EdgeDataMerge<ShapeCountBoolean, Self>, _: &mut ()) -> Self {
        let (Lies([a, b, c]), Lies([d, e, f])) = (merge.lhs_data, merge.rhs_data);
        Lies([a | d, b | e, c | f])
    }

    fn split(self, _: &mut ()) -> Self {
        let Lies([on, _, against]) = self;
        Lies([on, on, against])
    }

    fn reversed(self, _: &mut ()) -> Self {
        let Lies([on, cut, against]) = self;
        Lies([on, cut, on ^ against])
    }
}

/// A request.
struct Request {
    call: String,
    fill: FillRule,
    solver: Solver,
    rule: OverlayRule,
    options: IntOverlayOptions<u128>,
    clip_rule: ClipRule,
    first: Vec<Path>,
    second: Vec<Path>,
}

fn paths(line: &str) -> Vec<Path> {
    if line == "-" {
        return Vec::new();
    }
    let point = |it: &str| {
        let (x, y) = it.split_once(',').unwrap();
        IntPoint::new(x.parse().unwrap(), y.parse().unwrap())
    };
    line.split(';')
        .map(|it| it.split_whitespace().map(point).collect())
        .collect()
}

fn read(head: &str, first: &str, second: &str) -> Request {
    let mut words = head.split(' ');
    let call = words.next().unwrap().to_string();
    let n: Vec<usize> = words.by_ref().take(8).map(|it| it.parse().unwrap()).collect();
    let is = |at: usize| n[at] == 1;
    Request {
        call,
        fill: FILLS[n[0]],
        solver: [Solver::SNAPPED, Solver::ROUNDS][n[1]],
        rule: RULES[n[2]],
        options: IntOverlayOptions {
            preserve_input_collinear: false,
            output_direction: [ContourDirection::CounterClockwise, ContourDirection::Clockwise][n[3]],
            preserve_output_collinear: is(4),
            min_output_area: words.next().unwrap().parse().unwrap(),
            ogc: is(5),
        },
        clip_rule: ClipRule {
            invert: is(6),
            boundary_included: is(7),
        },
        first: paths(first),
        second: paths(second),
    }
}

fn all<T>(of: &[T], one: impl Fn(&T) -> String) -> String {
    format!("[{}]", of.iter().map(one).collect::<Vec<_>>().join(","))
}

fn point(it: &IntPoint<i64>) -> String {
    format!("[{},{}]", it.x, it.y)
}

fn shapes(of: &[Vec<Path>]) -> String {
    all(of, |it| all(it, |it| all(it, point)))
}

fn locations(of: &[PointLocation]) -> String {
    all(of, |it| format!("{it:?}").to_lowercase())
}

fn relations(it: Relations) -> String {
    all(&holding!(it), ToString::to_string)
}

/// The steps of paths on both sides, each with a bit of its own.
fn steps(subject: &[Path], clip: &[Path]) -> EdgeOverlay<i64, Lies> {
    let (mut overlay, mut bit) = (EdgeOverlay::new(0), 1);
    for (paths, side) in [(subject, ShapeType::Subject), (clip, ShapeType::Clip)] {
        for path in paths {
            for (&a, &b) in path.iter().zip(path.iter().cycle().skip(1)) {
                let data = Lies([bit, 0, 0]);
                overlay.add_edge(InputEdge { a, b, data }, side);
                bit <<= 1;
            }
        }
    }
    overlay
}

/// The answer, or the name of the refusal in Python.
fn answer(it: &Request) -> Result<String, OverlayError> {
    let (one, other, fill, solver) = (&it.first, &it.second, it.fill, it.solver);
    let mut overlay = Overlay::from_subj_and_clip_custom(one, other, it.options, solver);
    let strings = StringOverlay::from_shape_and_string(one, other);
    Ok(match it.call.as_str() {
        "overlay" => shapes(&overlay.try_overlay(it.rule, fill)?),
        "simplify" => shapes(&overlay.try_simplify_source(one, fill)?),
        "hierarchy" => {
            let found = overlay.try_overlay_hierarchy(it.rule, fill)?;
            let links = all(&found.links, |it| {
                let (shape, contour) = (it.parent_shape_index, it.parent_contour_index);
                format!("[{shape},{contour},{}]", it.child_shape_index)
            });
            format!("[{},{links}]", shapes(&found.shapes.to_shapes()))
        }
        "edges" => all(&overlay.try_build_separate_vectors(fill)?, |it| {
            format!("[{},{},{}]", point(&it.a), point(&it.b), it.fill)
        }),
        "trace" => {
            let mut edges = steps(one, other);
            edges.solver = solver;
            all(&edges.try_build_vectors(it.rule, fill)?, |it| {
                let ([on, cut, against], ends) = (it.data.0, format!("{},{}", point(&it.a), point(&it.b)));
                format!("[{ends},{},{on},{cut},{against}]", it.fill)
            })
        }
        "relate" => {
            let relate = PredicateOverlay::from_subj_and_clip_custom(one, other, fill, solver);
            relations(relate.try_relations()?)
        }
        "exact" => {
            let relate = ExactPredicates::from_subj_and_clip_custom(one, other, fill);
            relations(relate.try_relations()?)
        }
        "clip" => all(&strings.try_clip(fill, it.clip_rule, solver)?, |it| all(it, point)),
        "slice" => shapes(&strings.try_slice(fill, solver)?),
        "prepare" => locations(&PreparedShape::new(one, fill, solver)?.try_locate(&other.concat())?),
        "prepare_exact" => locations(&ExactShape::new(one, fill)?.try_locate(&other.concat())?),
        "locate" => locations(&one.try_locate_points(&other.concat())?),
        call => panic!("no call {call}"),
    })
}

fn main() {
    let text = std::io::read_to_string(std::io::stdin()).unwrap();
    let lines: Vec<&str> = text.lines().collect();
    for request in lines.chunks_exact(3) {
        let told = answer(&read(request[0], request[1], request[2]));
        println!(
            "{}",
            told.unwrap_or_else(|error| match error {
                OverlayError::NotResolved(_) => "NotResolved".to_string(),
                error => format!("{error:?}"),
            })
        );
    }
}
