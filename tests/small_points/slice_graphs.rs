//! Graphs of a shape and of strings over it, from small coordinates.

use crate::contours::{Points, point_of};
use overlay_arrange::content::Content;
use overlay_geom::error::OverlayError;
use overlay_geom::fill_rule::FillRule;
use overlay_geom::number::IntNumber;
use overlay_geom::point::IntPoint;
use overlay_geom::solver::Solver;
use overlay_graph::balance::is_balanced;
use overlay_graph::graph::Graph;
use overlay_order::edge::{CountedEdge, compare_points};
use overlay_order::string_count::{STRING_AGAINST, STRING_ALONG, ShapeCountString};
use std::alloc::Global;
use std::process::Abort;

/// A square of 20 round the origin, and a square of 10 in it as a closed string.
pub const SQUARE: Points<'static> = &[(-10, 10), (-10, -10), (10, -10), (10, 10)];

pub const INNER: Points<'static> = &[(-5, -5), (-5, 5), (5, 5), (5, -5), (-5, -5)];

/// The shapes into which the string cuts the square: a square with a hole, and an island in that.
pub const OUTER_AND_INNER: &[&[Points<'static>]] = &[
    &[
        &[(10, -10), (10, 10), (-10, 10), (-10, -10)],
        &[(-5, -5), (-5, 5), (5, 5), (5, -5)],
    ],
    &[&[(5, -5), (5, 5), (-5, 5), (-5, -5)]],
];

/// The counts of a step that leads from its edge's smaller end to the larger, and of a step back.
#[derive(Clone, Copy)]
struct Counts {
    along: ShapeCountString,
    back: ShapeCountString,
}

/// Those of the shape.
const OF_SHAPE: Counts = Counts {
    along: ShapeCountString { subj: 1, clip: 0 },
    back: ShapeCountString { subj: -1, clip: 0 },
};

/// Those of a string.
const OF_STRING: Counts = Counts {
    along: ShapeCountString {
        subj: 0,
        clip: STRING_ALONG,
    },
    back: ShapeCountString {
        subj: 0,
        clip: STRING_AGAINST,
    },
};

// Adds the edge, which leads from its smaller to its larger end in the coordinate range.
fn push_edge<I: IntNumber>(
    rt: &impl Abort,
    content: &mut Content<I, ShapeCountString, Global>,
    a: IntPoint<I>,
    b: IntPoint<I>,
    count: ShapeCountString,
) -> Result<(), OverlayError> {
    assert!(rt; a.x.is_in_range() && a.y.is_in_range());
    assert!(rt; b.x.is_in_range() && b.y.is_in_range());
    assert!(rt; compare_points(a, b).is_lt());
    assert!(rt; count.subj >= -1 && count.subj <= 1);
    content.push(CountedEdge { a, b, count })
}

// Adds the step, with the first of the counts if it leads from its edge's smaller end, and else with the other.
fn push<I: IntNumber + From<i16>>(
    rt: &impl Abort,
    content: &mut Content<I, ShapeCountString, Global>,
    from: (i16, i16),
    to: (i16, i16),
    counts: Counts,
) -> Result<(), OverlayError> {
    let (p, q) = (point_of::<I>(from), point_of::<I>(to));
    if compare_points(p, q).is_lt() {
        return push_edge(rt, content, p, q, counts.along);
    }
    push_edge(rt, content, q, p, counts.back)
}

// Adds the steps from each point to the next.
fn push_path<I: IntNumber + From<i16>>(
    rt: &impl Abort,
    content: &mut Content<I, ShapeCountString, Global>,
    points: Points<'_>,
    counts: Counts,
) -> Result<(), OverlayError> {
    for i in 1..points.len() {
        push(rt, content, points[i - 1], points[i], counts)?;
    }
    Ok(())
}

/// The graph of the contours, which are closed, and of the strings, which are open, once they are arranged.
pub fn graph_of<I: IntNumber + From<i16>>(
    rt: &impl Abort,
    alloc: Global,
    contours: &[Points<'_>],
    strings: &[Points<'_>],
) -> Result<Graph<I, ShapeCountString, Global>, OverlayError> {
    let mut content = Content::with_capacity(alloc, 0)?;
    for contour in contours {
        push_path(rt, &mut content, contour, OF_SHAPE)?;
        if let [first, .., last] = contour {
            push(rt, &mut content, *last, *first, OF_SHAPE)?;
        }
    }
    for string in strings {
        push_path(rt, &mut content, string, OF_STRING)?;
    }
    content.arrange(Solver::ABSOLUTE, &mut ())?;
    assert!(rt; is_balanced(alloc, content.edges())?);
    Ok(content.graph(FillRule::NonZero)?)
}
