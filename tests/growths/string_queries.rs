//! Queries of `StringOverlay`, and what is extracted from its views.

use crate::figures::{PATHS, Width, lone_squares, square_at, squares};
use crate::refusals::{Answer, Memory, PLENTY, Trial};
use crate::seen::is_failed;
use crate::strings::{Built, bar_at, builder, lines};
use i_overlay::fill_rule::FillRule;
use i_overlay::i_shape::int::shape::{IntShape, IntShapes};
use i_overlay::overlay::IntOverlayOptions;
use i_overlay::solver::Solver;
use i_overlay::string::clip::ClipRule;
use i_overlay::string::rule::StringRule;
use overlay_geom::error::OverlayError;
use overlay_geom::resource::IntShapeResource;
use std::process::Abort;
use std::test::Fail;

const RULE: FillRule = FillRule::NonZero;

const INSIDE: ClipRule = ClipRule {
    invert: false,
    boundary_included: true,
};

// Returns whether each adder answers that the builder has failed.
fn adders_fail<'m, I: Width>(
    it: &mut Built<'m, I>,
    shape: &IntShape<I, Memory<'m>>,
    shapes: &IntShapes<I, Memory<'m>>,
) -> bool {
    let line = bar_at(0);
    is_failed(it.add_shape_contour(&square_at(0)))
        && is_failed(it.add_shape_contour_iter(square_at(0).iter().copied()))
        && is_failed(it.add_shape_source(shape))
        && is_failed(it.add_shape_contours(shape))
        && is_failed(it.add_shapes(shapes))
        && is_failed(it.add_string_line(line))
        && is_failed(it.add_string_lines(&lines()))
        && is_failed(it.add_string_path(&line))
        && is_failed(it.add_string_contour(&line))
        && is_failed(it.add_string_source(shape))
        && is_failed(it.add_string_contour_source(shape))
        && is_failed(it.add_string_paths(shape))
        && is_failed(it.add_string_contours(shape))
}

// Refuses the growths of a query that gives a view: the builder has failed for good.
fn views<'m, I: Width, Q: Fn(&mut Built<'m, I>) -> Answer<bool> + Drop>(
    trial: &Trial<'m, impl Abort>,
    name: &str,
    query: Q,
) -> Result<(), Fail> {
    let memory = trial.memory;
    let (shape, shapes) = (squares::<I>(memory, PATHS)?, lone_squares::<I>(memory)?);
    let is_there = trial.refuse_each(
        name,
        || builder::<I>(memory, 1, PATHS),
        &query,
        |it| {
            let is_asked_again = is_failed(query(it));
            memory.grant(0);
            let has_failed = adders_fail(it, &shape, &shapes) && is_failed(query(it));
            memory.grant(PLENTY);
            Ok(is_asked_again && has_failed)
        },
    )?;
    assert!(trial.rt; is_there, "{name}: no view");
    Ok(())
}

fn check_views<I: Width>(trial: &Trial<'_, impl Abort>) -> Result<(), Fail> {
    views::<I, _>(trial, "StringOverlay::build_graph_view", |it| {
        let view = it.build_graph_view(RULE)?;
        Ok(view.is_some())
    })?;
    views::<I, _>(trial, "StringOverlay::build_graph_view_with_solver", |it| {
        let view = it.build_graph_view_with_solver(RULE, Solver::ABSOLUTE)?;
        Ok(view.is_some())
    })
}

#[test]
fn views_of_string_overlay(rt: HostRuntime) -> Result<(), Fail> {
    at_a_width!(rt, check_views)
}

// Takes the builder that is asked, which is dropped afterwards. A failed builder answers so.
fn taken<'m, I: Width>(it: &mut Option<Built<'m, I>>) -> Answer<Built<'m, I>> {
    match it.take() {
        Some(overlay) => Ok(overlay),
        None => Err(OverlayError::Failed),
    }
}

fn check_clips<I: Width>(trial: &Trial<'_, impl Abort>) -> Result<(), Fail> {
    let memory = trial.memory;
    let new = || Ok(Some(builder::<I>(memory, 1, PATHS)?));
    let paths = trial.refuse_each(
        "StringOverlay::clip_string_lines",
        new,
        |it| taken(it)?.clip_string_lines(RULE, INSIDE),
        |_| Ok(true),
    )?;
    assert!(trial.rt; paths.len() == PATHS);
    let paths = trial.refuse_each(
        "StringOverlay::clip_string_lines_with_solver",
        new,
        |it| taken(it)?.clip_string_lines_with_solver(RULE, INSIDE, Solver::ABSOLUTE),
        |_| Ok(true),
    )?;
    assert!(trial.rt; paths.len() == PATHS);
    let paths = trial.refuse_each(
        "StringOverlay::clip_string_lines_flat",
        new,
        |it| taken(it)?.clip_string_lines_flat(RULE, INSIDE, Solver::SNAPPED),
        |_| Ok(true),
    )?;
    assert!(trial.rt; paths.path_count() == PATHS);
    let failed = failed_builder::<I>(trial)?;
    assert!(trial.rt; is_failed(trial.without_memory(|| failed.clip_string_lines(RULE, INSIDE))));
    for solver in [Solver::ABSOLUTE, Solver::SNAPPED] {
        let failed = failed_builder::<I>(trial)?;
        let clipped = trial.without_memory(|| {
            failed.clip_string_lines_with_solver(RULE, INSIDE, solver)
        });
        assert!(trial.rt; is_failed(clipped));
        let failed = failed_builder::<I>(trial)?;
        let clipped = trial.without_memory(|| failed.clip_string_lines_flat(RULE, INSIDE, solver));
        assert!(trial.rt; is_failed(clipped));
    }
    Ok(())
}

// A builder of which a view was refused.
fn failed_builder<'m, I: Width>(trial: &Trial<'m, impl Abort>) -> Answer<Built<'m, I>> {
    let mut overlay = builder::<I>(trial.memory, 1, PATHS)?;
    let is_refused = trial.without_memory(|| overlay.build_graph_view(RULE).is_err());
    assert!(trial.rt; is_refused);
    Ok(overlay)
}

#[test]
fn clips_of_string_overlay(rt: HostRuntime) -> Result<(), Fail> {
    at_a_width!(rt, check_clips)
}

fn check_extractions<I: Width>(trial: &Trial<'_, impl Abort>) -> Result<(), Fail> {
    let mut overlay = builder::<I>(trial.memory, 1, PATHS)?;
    let Some(view) = overlay.build_graph_view(RULE)? else {
        return Err(OverlayError::Failed.into());
    };
    let options = IntOverlayOptions::keep_all_points();
    let (slice, wanted) = (StringRule::Slice, view.extract_shapes(StringRule::Slice)?);
    trial.refuse_each(
        "StringGraph::extract_shapes",
        || Ok(()),
        |_| view.extract_shapes(slice),
        |_| Ok(view.extract_shapes(slice)? == wanted),
    )?;
    trial.refuse_each(
        "StringGraph::extract_shapes_custom",
        || Ok(()),
        |_| view.extract_shapes_custom(slice, options),
        |_| Ok(view.extract_shapes_custom(slice, options)? == wanted),
    )?;
    assert!(trial.rt; wanted.len() == 1 + 1 + PATHS);
    Ok(())
}

#[test]
fn extractions_of_string_graph(rt: HostRuntime) -> Result<(), Fail> {
    at_a_width!(rt, check_extractions)
}
