//! The calls of `Overlay` that simplify: they mend the builder before they add.

use crate::figures::{Width, flat_squares, square_at};
use crate::overlay_queries::Until::Called;
use crate::overlay_queries::{figures_of, has_failed, is_empty, overlapping, refuses};
use crate::refusals::{Answer, Memory, PLENTY, Trial};
use crate::seen::Seen;
use i_overlay::fill_rule::FillRule;
use i_overlay::i_float::int::point::IntPoint;
use i_overlay::i_shape::flat::buffer::FlatContoursBuffer;
use i_overlay::i_shape::int::path::PathRef;
use i_overlay::overlay::Overlay;
use std::process::Abort;
use std::test::Fail;

const RULE: FillRule = FillRule::NonZero;

// The first square, clockwise: a contour that does not stay as it is.
fn turned<I: Width>() -> [IntPoint<I>; 4] {
    let [a, b, c, d] = square_at(0);
    [d, c, b, a]
}

fn check_simplify<I: Width>(trial: &Trial<'_, impl Abort>) -> Result<(), Fail> {
    let given = figures_of::<I>(trial.memory)?;
    let one = turned::<I>();
    refuses::<I, _, _>(trial, "Overlay::simplify_contour", Called, |it| {
        it.simplify_contour(&one, RULE)
    })?;
    refuses::<I, _, _>(trial, "Overlay::simplify_source", Called, |it| {
        it.simplify_source(&PathRef::new(&one), RULE)
    })?;
    refuses::<I, _, _>(trial, "Overlay::simplify_source", Called, |it| {
        it.simplify_source(&given.shape, RULE)
    })?;
    refuses::<I, _, _>(trial, "Overlay::simplify_shape", Called, |it| {
        it.simplify_shape(&given.shape, RULE)
    })?;
    refuses::<I, _, _>(trial, "Overlay::simplify_shapes", Called, |it| {
        it.simplify_shapes(&given.shapes, RULE)
    })
}

#[test]
fn overlay_simplifies(rt: HostRuntime) -> Result<(), Fail> {
    at_a_width!(rt, check_simplify)
}

// A buffer of one contour that is to be reversed, or of many.
fn buffer_of<I: Width>(
    memory: Memory<'_>,
    is_alone: bool,
) -> Answer<FlatContoursBuffer<I, Memory<'_>>> {
    if !is_alone {
        return flat_squares(memory);
    }
    let mut buffer = FlatContoursBuffer::default(memory)?;
    buffer.add_contour(&turned())?;
    Ok(buffer)
}

// A refusal leaves the buffer as it was, or empty, and the builder failed; the call mends it when it is made again.
fn check_flat_of<I: Width>(trial: &Trial<'_, impl Abort>, is_alone: bool) -> Result<(), Fail> {
    let memory = trial.memory;
    let given = figures_of::<I>(memory)?;
    let new = || Ok((overlapping::<I>(memory)?, buffer_of::<I>(memory, is_alone)?));
    let (old, (mut overlay, mut wanted)) = (buffer_of::<I>(memory, is_alone)?, new()?);
    overlay.simplify_flat_buffer(&mut wanted, RULE)?;
    let edges = overlay.content()?;
    trial.refuse_each(
        "Overlay::simplify_flat_buffer",
        new,
        |it| it.0.simplify_flat_buffer(&mut it.1, RULE),
        |it| {
            memory.grant(0);
            let is_kept = (it.1 == old || is_empty(&it.1)) && has_failed(&mut it.0, &given);
            memory.grant(PLENTY);
            it.1 = old.clone()?;
            it.0.simplify_flat_buffer(&mut it.1, RULE)?;
            Ok(is_kept && it.1 == wanted && it.0.content()? == edges)
        },
    )
}

fn check_flat<'m, I: Width>(trial: &Trial<'m, impl Abort>) -> Result<(), Fail> {
    check_flat_of::<I>(trial, true)?;
    check_flat_of::<I>(trial, false)
}

#[test]
fn overlay_simplifies_a_flat_buffer(rt: HostRuntime) -> Result<(), Fail> {
    at_a_width!(rt, check_flat)
}
