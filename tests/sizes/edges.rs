//! `EdgeOverlay`: the edges of squares, each with the number of its side.

ghost use Rattle.std.specs.Prelude.{⊤};

use crate::figures::{COUNT, comb, square_at};
use i_overlay::edge_data::{EdgeDataMerge, OverlayEdgeData};
use i_overlay::edge_overlay::{EdgeOverlay, InputEdge};
use i_overlay::fill_rule::FillRule;
use i_overlay::overlay::ShapeType;
use i_overlay::overlay_rule::OverlayRule;
use i_overlay::segm::boolean::ShapeCountBoolean;
use i_overlay::vector::edge::ToPath;
use overlay_geom::error::OverlayError;
use std::alloc::Global;
use std::process::Abort;
use std::test::Fail;

const UNION: OverlayRule = OverlayRule::Union;

const RULE: FillRule = FillRule::NonZero;

// The side of a square, from 0 on.
#[derive(Debug, Clone, Copy, PartialEq, Eq)]
struct Side(u8);

impl OverlayEdgeData for Side {
    type Store = ();

    ghost merges = { λ _ _ _ _ _. ⊤ };

    fn merge(merge: EdgeDataMerge<ShapeCountBoolean, Side>, _store: &mut ()) -> Side {
        merge.lhs_data
    }

    fn split(self, _store: &mut ()) -> Side {
        self
    }

    fn reversed(self, _store: &mut ()) -> Side {
        self
    }
}

// The edges of all squares.
fn all_edges(alloc: Global) -> Result<Vec<InputEdge<i32, Side>, Global>, Fail> {
    let mut edges = Vec::new(alloc);
    for number in 0..COUNT {
        let [a, b, c, d] = square_at(number, 0, 4);
        for (from, to, side) in [(a, b, 0), (b, c, 1), (c, d, 2), (d, a, 3)] {
            edges.push(InputEdge {
                a: from,
                b: to,
                edge_data: Side(side),
            })?;
        }
    }
    Ok(edges)
}

// Tests whether the builder has the squares, each side with its number.
fn has_squares(mut overlay: EdgeOverlay<i32, Side, Global>) -> Result<bool, OverlayError> {
    if overlay.edges().count() != 4 * COUNT
        || overlay.build_vectors(UNION, RULE)?.len() != 4 * COUNT
    {
        return Ok(false);
    }
    let shapes = overlay.build_vector_shapes(UNION, RULE)?;
    for shape in &shapes {
        if shape.len() != 1 || shape[0].len() != 4 {
            return Ok(false);
        }
        // (a contour begins along the left side, from above)
        let [left, low, right, high] = [shape[0][0], shape[0][1], shape[0][2], shape[0][3]];
        let sides = [left, low, right, high].map(|edge| edge.edge_data.0);
        if sides != [3, 0, 1, 2] {
            return Ok(false);
        }
    }
    Ok(shapes.len() == COUNT)
}

#[test]
fn edges_of_squares(rt: HostRuntime) -> Result<(), Fail> {
    let alloc = rt.alloc();
    let edges = all_edges(alloc)?;
    let mut one_by_one = EdgeOverlay::new(alloc, 0)?;
    for edge in &edges {
        one_by_one.add_edge(*edge, ShapeType::Subject)?;
    }
    assert!(&rt; has_squares(one_by_one)?);
    let mut at_once = EdgeOverlay::new(alloc, 4 * COUNT)?;
    at_once.add_edges(edges.iter().copied(), ShapeType::Subject)?;
    assert!(&rt; has_squares(at_once)?);
    Ok(())
}

// The comb is one contour, which begins along its left side, from above.
#[test]
fn edges_of_a_comb(rt: HostRuntime) -> Result<(), Fail> {
    let alloc = rt.alloc();
    let contour = comb(alloc)?;
    let last = contour.len() - 1;
    let mut overlay = EdgeOverlay::new(alloc, 0)?;
    for place in 0..contour.len() {
        let edge = InputEdge {
            a: contour[place],
            b: contour[if place < last { place + 1 } else { 0 }],
            edge_data: Side(0),
        };
        overlay.add_edge(edge, ShapeType::Subject)?;
    }
    let shapes = overlay.build_vector_shapes(UNION, RULE)?;
    assert!(&rt; shapes.len() == 1 && shapes[0].len() == 1);
    let points = shapes[0][0].to_path(alloc)?;
    assert!(&rt; points.len() == 4 * COUNT && points[0] == contour[last]);
    assert!(&rt; points[1..] == contour[..last]);
    Ok(())
}
