//! Queries of `Overlay`: pairs of squares that overlap in a corner, and nested squares.

use crate::figures::{COUNT, ROWS, are_squares, corner_at, point, square_at, squares};
use i_overlay::fill_rule::FillRule;
use i_overlay::hierarchy::ChildLink;
use i_overlay::i_float::int::point::IntPoint;
use i_overlay::i_shape::flat::buffer::FlatContoursBuffer;
use i_overlay::overlay::{Overlay, ShapeType};
use i_overlay::overlay_rule::OverlayRule;
use i_overlay::solver::Solver;
use std::alloc::Global;
use std::process::Abort;
use std::test::Fail;

const RULE: FillRule = FillRule::NonZero;

/// Number of edges of a pair: two sides of each square are cut in two.
pub(crate) const EDGES: usize = 12;

/// A builder of pairs: the subject's square has the side 4, as has the clip's, which lies 2 units right and up of it.
pub(crate) fn pairs(alloc: Global) -> Result<Overlay<i32, Global>, Fail> {
    let (subj, clip) = (squares(alloc, 0, 4)?, squares(alloc, 2, 4)?);
    Ok(Overlay::from_subj_and_clip(alloc, &subj, &clip)?)
}

/// The outline of both squares of a pair.
pub(crate) fn both_at(number: usize) -> [IntPoint<i32>; 8] {
    let IntPoint { x, y } = corner_at(number);
    [
        point(x, y + 4),
        point(x, y),
        point(x + 4, y),
        point(x + 4, y + 2),
        point(x + 6, y + 2),
        point(x + 6, y + 6),
        point(x + 2, y + 6),
        point(x + 2, y + 4),
    ]
}

/// Tests whether the buffer has the outlines of all pairs, in order.
pub(crate) fn are_both(buffer: &FlatContoursBuffer<i32, Global>) -> bool {
    if buffer.ranges.len() != COUNT || buffer.points.len() != 8 * COUNT {
        return false;
    }
    for number in 0..COUNT {
        let range = &buffer.ranges[number];
        if range.start != 8 * number || range.end != 8 * number + 8 {
            return false;
        }
        let wanted = both_at(number);
        if buffer.points[8 * number..8 * number + 8] != wanted[..] {
            return false;
        }
    }
    true
}

#[test]
fn shapes_of_pairs(rt: HostRuntime) -> Result<(), Fail> {
    let alloc = rt.alloc();
    for solver in [Solver::ABSOLUTE, Solver::SNAPPED] {
        let mut overlay = pairs(alloc)?;
        overlay.solver = solver;
        let common = overlay.overlay(OverlayRule::Intersect, RULE)?;
        assert!(&rt; are_squares(&common, 2, 2));
        let both = overlay.overlay(OverlayRule::Union, RULE)?;
        assert!(&rt; both.len() == COUNT);
        for number in 0..COUNT {
            assert!(&rt; both[number].len() == 1);
            assert!(&rt; both[number][0].as_slice() == both_at(number).as_slice());
        }
    }
    Ok(())
}

#[test]
fn contours_of_pairs(rt: HostRuntime) -> Result<(), Fail> {
    let alloc = rt.alloc();
    let mut output = FlatContoursBuffer::default(alloc)?;
    pairs(alloc)?.overlay_into(OverlayRule::Union, RULE, &mut output)?;
    assert!(&rt; are_both(&output));
    Ok(())
}

#[test]
fn shapes_of_pairs_in_one_list(rt: HostRuntime) -> Result<(), Fail> {
    let flat = pairs(rt.alloc())?.into_flat_shapes(OverlayRule::Union, RULE)?;
    assert!(&rt; flat.shape_ranges.len() == COUNT && flat.points.len() == 8 * COUNT);
    let both = flat.to_shapes()?;
    for number in 0..COUNT {
        assert!(&rt; both[number].len() == 1);
        assert!(&rt; both[number][0].as_slice() == both_at(number).as_slice());
    }
    Ok(())
}

#[test]
fn vectors_of_pairs(rt: HostRuntime) -> Result<(), Fail> {
    let alloc = rt.alloc();
    let edges = pairs(alloc)?.build_separate_vectors(RULE)?;
    assert!(&rt; edges.len() == EDGES * COUNT);
    let shapes = pairs(alloc)?.build_shape_vectors(RULE, OverlayRule::Union)?;
    assert!(&rt; shapes.len() == COUNT);
    for shape in &shapes {
        assert!(&rt; shape.len() == 1);
        assert!(&rt; shape[0].len() == 8);
    }
    Ok(())
}

/// A builder of nested squares: of each number a frame, and an island in its hole.
pub(crate) fn nested(alloc: Global) -> Result<Overlay<i32, Global>, Fail> {
    let mut overlay = Overlay::new(alloc, 0)?;
    for number in 0..COUNT {
        for (by, side) in [(0, 8), (2, 4), (3, 2)] {
            overlay.add_contour(&square_at(number, by, side), ShapeType::Subject)?;
        }
    }
    Ok(overlay)
}

/// Tests whether these are the links of the nested squares. Of each column there come first the frames, of two contours
/// each, and then the islands.
pub(crate) fn are_links(links: &[ChildLink]) -> bool {
    if links.len() != COUNT {
        return false;
    }
    for number in 0..COUNT {
        let (column, row) = (number / ROWS, number % ROWS);
        let wanted = ChildLink {
            parent_shape_index: 2 * ROWS * column + row,
            parent_contour_index: 3 * ROWS * column + 2 * row + 1,
            child_shape_index: 2 * ROWS * column + ROWS + row,
        };
        if links[number] != wanted {
            return false;
        }
    }
    true
}

#[test]
fn nested_squares(rt: HostRuntime) -> Result<(), Fail> {
    let mut overlay = nested(rt.alloc())?;
    let found = overlay.overlay_hierarchy(OverlayRule::Subject, FillRule::EvenOdd)?;
    assert!(&rt; found.shapes.shape_ranges.len() == 2 * COUNT);
    assert!(&rt; found.shapes.contour_ranges.len() == 3 * COUNT);
    assert!(&rt; found.shapes.points.len() == 12 * COUNT);
    assert!(&rt; are_links(&found.links));
    Ok(())
}
