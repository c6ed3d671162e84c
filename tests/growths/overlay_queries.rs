//! Queries of `Overlay`, and its calls that simplify.

use crate::figures::{PATHS, Width, flat_squares, lone_squares, square, square_at, squares};
use crate::overlay_adders::builder;
use crate::overlay_queries::Until::Cleared;
use crate::refusals::{Answer, Memory, Trial};
use crate::seen::{Seen, is_failed};
use i_overlay::fill_rule::FillRule;
use i_overlay::i_shape::flat::buffer::FlatContoursBuffer;
use i_overlay::i_shape::int::shape::{IntShape, IntShapes};
use i_overlay::overlay::{Overlay, ShapeType};
use i_overlay::overlay_rule::OverlayRule;
use overlay_geom::error::OverlayError;
use std::process::Abort;
use std::test::Fail;

const UNION: OverlayRule = OverlayRule::Union;

const RULE: FillRule = FillRule::NonZero;

const CLIP: ShapeType = ShapeType::Clip;

// Arguments of calls on a failed builder.
#[derive(Drop)]
pub(crate) struct Figures<'m, I: Width> {
    pub(crate) shape: IntShape<I, Memory<'m>>,
    pub(crate) shapes: IntShapes<I, Memory<'m>>,
    pub(crate) buffer: FlatContoursBuffer<I, Memory<'m>>,
}

pub(crate) fn figures_of<I: Width>(memory: Memory<'_>) -> Answer<Figures<'_, I>> {
    Ok(Figures {
        shape: squares(memory, PATHS)?,
        shapes: lone_squares(memory)?,
        buffer: flat_squares(memory)?,
    })
}

// A builder with overlapping squares, a hole and an island in it.
pub(crate) fn overlapping<I: Width>(memory: Memory<'_>) -> Answer<Overlay<I, Memory<'_>>> {
    let mut overlay = Overlay::new(memory, 0)?;
    for (low, high) in [(0, 20), (2, 18), (4, 16)] {
        overlay.add_contour(&square(low, high), ShapeType::Subject)?;
    }
    overlay.add_contour(&square(17, 24), ShapeType::Clip)?;
    Ok(overlay)
}

// Returns whether each adder answers that the builder has failed.
fn adders_fail<I: Width>(it: &mut Overlay<I, Memory<'_>>, given: &Figures<'_, I>) -> bool {
    let more = square_at(0);
    is_failed(it.add_contour(&more, CLIP))
        && is_failed(it.add_path_iter(more.iter().copied(), CLIP))
        && is_failed(it.add_source(&given.shape, CLIP))
        && is_failed(it.add_contours(&given.shape, CLIP))
        && is_failed(it.add_shape(&given.shape, CLIP))
        && is_failed(it.add_shapes(&given.shapes, CLIP))
        && is_failed(it.add_flat_buffer(&given.buffer, CLIP))
}

// Returns whether each call that does not clear answers that the builder has failed.
pub(crate) fn has_failed<I: Width>(
    it: &mut Overlay<I, Memory<'_>>,
    given: &Figures<'_, I>,
) -> bool {
    adders_fail(it, given)
        && is_failed(it.overlay(UNION, RULE))
        && is_failed(it.overlay_hierarchy(UNION, RULE))
        && is_failed(it.build_shape_vectors(RULE, UNION))
        && is_failed(it.build_separate_vectors(RULE))
        && is_failed(it.build_graph_view(RULE))
}

pub(crate) fn is_empty<I: Width>(buffer: &FlatContoursBuffer<I, Memory<'_>>) -> bool {
    buffer.points.len() == 0 && buffer.ranges.len() == 0
}

// Puts what `overlapping` has in the place of what the builder holds.
fn mend<I: Width>(it: &mut Overlay<I, Memory<'_>>) -> Answer<()> {
    it.clear();
    for (low, high) in [(0, 20), (2, 18), (4, 16)] {
        it.add_contour(&square(low, high), ShapeType::Subject)?;
    }
    it.add_contour(&square(17, 24), ShapeType::Clip)
}

/// What mends a builder that has failed.
#[derive(Drop)]
pub(crate) enum Until {
    /// It is cleared, and is given what `overlapping` has.
    Cleared,
    /// The call is made again.
    Called,
}

/// Refuses the growths of a query that leaves the builder failed until it is mended.
pub(crate) fn refuses<
    'm,
    I: Width,
    T: PartialEq + Drop,
    Q: Fn(&mut Overlay<I, Memory<'m>>) -> Answer<T> + Drop,
>(trial: &Trial<'m, impl Abort>, name: &str, until: Until, query: Q) -> Result<(), Fail> {
    let memory = trial.memory;
    let given = figures_of::<I>(memory)?;
    trial.answers_or_fails(
        name,
        || overlapping(memory),
        query,
        |it| has_failed(it, &given),
        |it| match &until {
            Until::Cleared => mend(it),
            Until::Called => Ok(()),
        },
    )
}

fn check_queries<I: Width>(trial: &Trial<'_, impl Abort>) -> Result<(), Fail> {
    refuses::<I, _, _>(
        trial,
        "Overlay::overlay",
        Cleared,
        |it| it.overlay(UNION, RULE),
    )?;
    refuses::<I, _, _>(trial, "Overlay::overlay_hierarchy", Cleared, |it| {
        it.overlay_hierarchy(UNION, FillRule::EvenOdd)
    })?;
    refuses::<I, _, _>(trial, "Overlay::build_shape_vectors", Cleared, |it| {
        it.build_shape_vectors(RULE, UNION)
    })?;
    refuses::<I, _, _>(trial, "Overlay::build_separate_vectors", Cleared, |it| {
        it.build_separate_vectors(RULE)
    })?;
    refuses::<I, _, _>(trial, "Overlay::build_graph_view", Cleared, |it| {
        let view = it.build_graph_view(RULE)?;
        Ok(view.is_some())
    })
}

#[test]
fn queries_of_overlay(rt: HostRuntime) -> Result<(), Fail> {
    at_a_width!(rt, check_queries)
}

// Refuses the growths of a query that writes: the output is empty, and the builder has failed. Queries of a failed
// builder leave the output empty, too.
fn check_overlay_into<I: Width>(trial: &Trial<'_, impl Abort>) -> Result<(), Fail> {
    let memory = trial.memory;
    let given = figures_of::<I>(memory)?;
    let new = || Ok((overlapping::<I>(memory)?, flat_squares::<I>(memory)?));
    let (mut overlay, mut wanted) = new()?;
    overlay.overlay_into(UNION, RULE, &mut wanted)?;
    assert!(trial.rt; !is_empty(&wanted));
    trial.refuse_each(
        "Overlay::overlay_into",
        new,
        |it| it.0.overlay_into(UNION, RULE, &mut it.1),
        |it| {
            let is_emptied = is_empty(&it.1) && has_failed(&mut it.0, &given);
            it.1.add_contour(&square(0, 2))?;
            let is_failed = is_failed(it.0.overlay_into(UNION, RULE, &mut it.1));
            let is_emptied_again = is_failed && is_empty(&it.1);
            mend(&mut it.0)?;
            it.0.overlay_into(UNION, RULE, &mut it.1)?;
            Ok(is_emptied && is_emptied_again && it.1 == wanted)
        },
    )
}

// Refuses the growths of a query that uses the builder up, and asks it of one that has failed.
fn check_into_flat_shapes<I: Width>(trial: &Trial<'_, impl Abort>) -> Result<(), Fail> {
    let memory = trial.memory;
    let flat = trial.refuse_each(
        "Overlay::into_flat_shapes",
        || Ok(Some(overlapping::<I>(memory)?)),
        |it| it
            .take()
            .ok_or(OverlayError::Failed)?
            .into_flat_shapes(UNION, RULE),
        |_| Ok(true),
    )?;
    assert!(trial.rt; flat.to_shapes()? == overlapping::<I>(memory)?.overlay(UNION, RULE)?);
    let mut failed = overlapping::<I>(memory)?;
    assert!(trial.rt; trial.without_memory(|| failed.overlay(UNION, RULE).is_err()));
    assert!(trial.rt; is_failed(trial.without_memory(|| failed.into_flat_shapes(UNION, RULE))));
    Ok(())
}

#[test]
fn overlay_into_flat_shapes(rt: HostRuntime) -> Result<(), Fail> {
    at_a_width!(rt, check_into_flat_shapes)
}

#[test]
fn overlay_into_a_buffer(rt: HostRuntime) -> Result<(), Fail> {
    at_a_width!(rt, check_overlay_into)
}
