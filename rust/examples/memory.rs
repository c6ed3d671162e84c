//! Asks for answers that take much memory, to be run with little: `memory COUNT` says how many shapes there are of a
//! contour, and of its edges one by one, or why the call was refused.
#![allow(clippy::unwrap_used, clippy::arithmetic_side_effects)]

use polyover::core::edge_overlay::{EdgeOverlay, InputEdge};
use polyover::core::{fill_rule::FillRule, overlay::Overlay, overlay::ShapeType, overlay_rule::OverlayRule};
use polyover::error::OverlayError;
use polyover::i_float::int::point::IntPoint;

fn point(at: i32) -> IntPoint<i32> {
    IntPoint::new(at, if at % 2 == 0 { 0 } else { 1000 + at % 7 })
}

fn of_contour(count: i32) -> Result<usize, OverlayError> {
    let mut overlay = Overlay::new(usize::try_from(count).unwrap());
    overlay.add_path_iter((0..count).map(point), ShapeType::Subject);
    let shapes = overlay.try_overlay(OverlayRule::Subject, FillRule::EvenOdd)?;
    Ok(shapes.len())
}

fn of_edges(count: i32) -> Result<usize, OverlayError> {
    let mut overlay = EdgeOverlay::new(0);
    for at in 0..count {
        let (a, b, data) = (point(at), point((at + 1) % count), ());
        overlay.try_add_edge(InputEdge { a, b, data }, ShapeType::Subject)?;
    }
    overlay.try_build_vectors(OverlayRule::Subject, FillRule::EvenOdd)?;
    let shapes = overlay.try_build_vector_shapes(OverlayRule::Subject, FillRule::EvenOdd)?;
    Ok(shapes.len())
}

fn main() {
    let count: i32 = std::env::args().nth(1).unwrap().parse().unwrap();
    for answer in [of_contour(count), of_edges(count)] {
        match answer {
            Ok(shapes) => println!("{shapes} shapes"),
            Err(error) => println!("{error:?}: {error}"),
        }
    }
}
