//! Extractions from views of `Overlay`.

use crate::figures::{Width, flat_squares, square};
use crate::overlay_adders::builder;
use crate::overlay_queries::{is_empty, overlapping};
use crate::refusals::{Answer, Memory, Trial};
use i_overlay::extract::BooleanExtractionBuffer;
use i_overlay::fill_rule::FillRule;
use i_overlay::graph::OverlayGraph;
use i_overlay::i_shape::flat::buffer::FlatContoursBuffer;
use i_overlay::overlay_rule::OverlayRule;
use overlay_geom::error::OverlayError;
use std::process::Abort;
use std::test::Fail;

const UNION: OverlayRule = OverlayRule::Union;

type Buffer<'m, I> = BooleanExtractionBuffer<I, Memory<'m>>;

type View<'v, 'm, I> = OverlayGraph<'v, I, (), Memory<'m>>;

// A buffer that was used for the view of another builder.
fn used<I: Width>(memory: Memory<'_>) -> Answer<Buffer<'_, I>> {
    let mut buffer = BooleanExtractionBuffer::default(memory);
    let mut other = builder::<I>(memory, 3)?;
    let Some(view) = other.build_graph_view(FillRule::EvenOdd)? else {
        return Err(OverlayError::Failed);
    };
    view.extract_shapes(UNION, &mut buffer)?;
    Ok(buffer)
}

// Refuses the growths of an extraction with a buffer that was used elsewhere. The view answers in full when it is asked
// again, with the buffer that the refusal left.
fn extracts<'m, I: Width, T: PartialEq + Drop, E: Fn(&mut Buffer<'m, I>) -> Answer<T> + Drop>(
    trial: &Trial<'m, impl Abort>,
    name: &str,
    extract: E,
) -> Result<(), Fail> {
    let memory = trial.memory;
    let wanted = extract(&mut BooleanExtractionBuffer::default(memory))?;
    let answer = trial.refuse_each(
        name,
        || used::<I>(memory),
        &extract,
        |it| Ok(extract(it)? == wanted),
    )?;
    assert!(trial.rt; answer == wanted, "{name}: the answer");
    Ok(())
}

// Refuses the growths of an extraction that writes: the output is empty then.
fn check_contours_into<'m, I: Width>(
    trial: &Trial<'m, impl Abort>,
    view: &View<'_, 'm, I>,
) -> Result<(), Fail> {
    let memory = trial.memory;
    let new = || Ok((used::<I>(memory)?, flat_squares::<I>(memory)?));
    let (mut buffer, mut wanted) = new()?;
    view.extract_contours_into(UNION, &mut buffer, &mut wanted)?;
    assert!(trial.rt; !is_empty(&wanted));
    trial.refuse_each(
        "OverlayGraph::extract_contours_into",
        new,
        |it| view.extract_contours_into(UNION, &mut it.0, &mut it.1),
        |it| {
            let is_emptied = is_empty(&it.1);
            view.extract_contours_into(UNION, &mut it.0, &mut it.1)?;
            Ok(is_emptied && it.1 == wanted)
        },
    )
}

fn check_extractions<I: Width>(trial: &Trial<'_, impl Abort>) -> Result<(), Fail> {
    let mut overlay = overlapping::<I>(trial.memory)?;
    let Some(view) = overlay.build_graph_view(FillRule::EvenOdd)? else {
        return Err(OverlayError::Failed.into());
    };
    extracts::<I, _, _>(trial, "OverlayGraph::extract_shapes", |it| {
        view.extract_shapes(UNION, it)
    })?;
    extracts::<I, _, _>(trial, "OverlayGraph::extract_shape_hierarchy", |it| {
        view.extract_shape_hierarchy(UNION, it)
    })?;
    extracts::<I, _, _>(trial, "OverlayGraph::extract_vector_shapes", |it| {
        view.extract_vector_shapes(UNION, it)
    })?;
    extracts::<I, _, _>(
        trial,
        "OverlayGraph::extract_vector_shapes_with_store",
        |it| { view.extract_vector_shapes_with_store(UNION, it, &mut ()) },
    )?;
    extracts::<I, _, _>(trial, "OverlayGraph::extract_separate_vectors", |_| {
        view.extract_separate_vectors()
    })?;
    extracts::<I, _, _>(
        trial,
        "OverlayGraph::extract_vectors",
        |_| view.extract_vectors(),
    )?;
    extracts::<I, _, _>(trial, "OverlayGraph::extract_vectors_with_store", |_| {
        view.extract_vectors_with_store(&mut ())
    })?;
    check_contours_into(trial, &view)
}

#[test]
fn extractions_of_overlay_graph(rt: HostRuntime) -> Result<(), Fail> {
    at_a_width!(rt, check_extractions)
}
