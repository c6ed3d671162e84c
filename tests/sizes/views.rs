//! Extractions from a view of pairs of squares, and of nested squares.

use crate::figures::{COUNT, are_squares};
use crate::overlays::{EDGES, are_both, are_links, nested, pairs};
use i_overlay::extract::BooleanExtractionBuffer;
use i_overlay::fill_rule::FillRule;
use i_overlay::i_shape::flat::buffer::FlatContoursBuffer;
use i_overlay::overlay_rule::OverlayRule;
use std::process::Abort;
use std::test::Fail;

const RULE: FillRule = FillRule::NonZero;

const UNION: OverlayRule = OverlayRule::Union;

#[test]
fn pairs_of_a_view(rt: HostRuntime) -> Result<(), Fail> {
    let alloc = rt.alloc();
    let mut overlay = pairs(alloc)?;
    let Some(view) = overlay.build_graph_view(RULE)? else {
        assert!(&rt; false, "no view");
        return Ok(());
    };
    let mut buffer = BooleanExtractionBuffer::default(alloc);
    let common = view.extract_shapes(OverlayRule::Intersect, &mut buffer)?;
    assert!(&rt; are_squares(&common, 2, 2));
    let mut output = FlatContoursBuffer::default(alloc)?;
    view.extract_contours_into(UNION, &mut buffer, &mut output)?;
    assert!(&rt; are_both(&output));
    let shapes = view.extract_vector_shapes(UNION, &mut buffer)?;
    assert!(&rt; shapes.len() == COUNT);
    let stored = view.extract_vector_shapes_with_store(UNION, &mut buffer, &mut ())?;
    assert!(&rt; stored == shapes);
    let edges = view.extract_separate_vectors()?;
    assert!(&rt; edges.len() == EDGES * COUNT);
    assert!(&rt; view.extract_vectors()? == edges);
    assert!(&rt; view.extract_vectors_with_store(&mut ())? == edges);
    Ok(())
}

#[test]
fn hierarchy_of_a_view(rt: HostRuntime) -> Result<(), Fail> {
    let alloc = rt.alloc();
    let mut overlay = nested(alloc)?;
    let Some(view) = overlay.build_graph_view(FillRule::EvenOdd)? else {
        assert!(&rt; false, "no view");
        return Ok(());
    };
    let mut buffer = BooleanExtractionBuffer::default(alloc);
    let found = view.extract_shape_hierarchy(OverlayRule::Subject, &mut buffer)?;
    assert!(&rt; found.shapes.shape_ranges.len() == 2 * COUNT);
    assert!(&rt; are_links(&found.links));
    Ok(())
}
