//! Constructors and adders of `Overlay`.

use crate::figures::{PATHS, Width, flat_squares, lone_squares, point, square, square_at, squares};
use crate::refusals::{Answer, Memory, Trial};
use crate::seen::Seen;
use i_overlay::fill_rule::FillRule;
use i_overlay::i_float::int::point::IntPoint;
use i_overlay::overlay::{IntOverlayOptions, Overlay, ShapeType};
use i_overlay::solver::Solver;
use i_overlay::vector::edge::DataVectorEdge;
use std::process::Abort;
use std::test::Fail;

impl<'m, I: Width> Seen for Overlay<I, Memory<'m>> {
    type Content = Vec<DataVectorEdge<I, ()>, Memory<'m>>;

    fn content(&mut self) -> Answer<Vec<DataVectorEdge<I, ()>, Memory<'m>>> {
        self.build_separate_vectors(FillRule::NonZero)
    }
}

// Room for a square, and for two edges of another square: a growth is refused halfway.
const ROOM: usize = 6;

/// A builder with a square as subject, and the first of the resources as clips.
pub(crate) fn builder<I: Width>(
    memory: Memory<'_>,
    count: usize,
) -> Answer<Overlay<I, Memory<'_>>> {
    let mut overlay = Overlay::new(memory, ROOM)?;
    overlay.add_contour(&square(0, 2), ShapeType::Subject)?;
    for place in 0..count {
        overlay.add_contour(&square_at(place), ShapeType::Clip)?;
    }
    Ok(overlay)
}

// A builder with the first squares of a subject's, and with those of a clip's once the subject has all.
fn of_both<I: Width>(memory: Memory<'_>, count: usize) -> Answer<Overlay<I, Memory<'_>>> {
    let mut overlay = Overlay::new(memory, 0)?;
    for place in 0..count.min(PATHS) {
        overlay.add_contour(&square_at(place), ShapeType::Subject)?;
    }
    for place in 0..count.saturating_sub(PATHS) {
        overlay.add_contour(&square_at(place), ShapeType::Clip)?;
    }
    Ok(overlay)
}

// Refuses the growths of an adder of all squares as clips.
fn adds_all<'m, I: Width, C: Fn(&mut Overlay<I, Memory<'m>>) -> Answer<()> + Drop>(
    trial: &Trial<'m, impl Abort>,
    name: &str,
    add: C,
) -> Result<(), Fail> {
    let first = |count| builder::<I>(trial.memory, count);
    trial.adds_those_before(name, || first(0), add, PATHS, first)
}

fn check_adders<I: Width>(trial: &Trial<'_, impl Abort>) -> Result<(), Fail> {
    let memory = trial.memory;
    let new = || builder::<I>(memory, 0);
    let more = square_at::<I>(0);
    let clip = ShapeType::Clip;
    trial.adds_or_keeps(
        "Overlay::add_contour",
        new,
        |it| it.add_contour(&more, clip),
    )?;
    trial.adds_or_keeps("Overlay::add_path_iter", new, |it| {
        it.add_path_iter(more.iter().copied(), clip)
    })?;
    let (shape, buffer) = (squares::<I>(memory, PATHS)?, flat_squares::<I>(memory)?);
    let shapes = lone_squares::<I>(memory)?;
    adds_all::<I, _>(
        trial,
        "Overlay::add_source",
        |it| it.add_source(&shape, clip),
    )?;
    adds_all::<I, _>(
        trial,
        "Overlay::add_contours",
        |it| it.add_contours(&shape, clip),
    )?;
    adds_all::<I, _>(trial, "Overlay::add_shape", |it| it.add_shape(&shape, clip))?;
    adds_all::<I, _>(
        trial,
        "Overlay::add_shapes",
        |it| it.add_shapes(&shapes, clip),
    )?;
    adds_all::<I, _>(
        trial,
        "Overlay::add_flat_buffer",
        |it| it.add_flat_buffer(&buffer, clip),
    )
}

#[test]
fn adders_of_overlay(rt: HostRuntime) -> Result<(), Fail> {
    at_a_width!(rt, check_adders)
}

// A builder that keeps all points, with a square and the first ones of the resources.
fn keeping<I: Width>(memory: Memory<'_>, count: usize) -> Answer<Overlay<I, Memory<'_>>> {
    let mut overlay = builder(memory, count)?;
    overlay.options = IntOverlayOptions::keep_all_points();
    Ok(overlay)
}

fn check_keeping<I: Width>(trial: &Trial<'_, impl Abort>) -> Result<(), Fail> {
    let memory = trial.memory;
    let more: [IntPoint<I>; 5] = [
        point(10, 10),
        point(11, 10),
        point(12, 10),
        point(12, 12),
        point(10, 12),
    ];
    let (new, clip) = (|| keeping::<I>(memory, 0), ShapeType::Clip);
    trial.adds_or_keeps(
        "Overlay::add_contour",
        new,
        |it| it.add_contour(&more, clip),
    )?;
    trial.adds_or_keeps("Overlay::add_path_iter", new, |it| {
        it.add_path_iter(more.iter().copied(), clip)
    })?;
    let mut added = new()?;
    added.add_contour(&more, clip)?;
    assert!(trial.rt; added.content()?.len() == 4 + 5);
    let shape = squares::<I>(memory, PATHS)?;
    let first = |count| keeping::<I>(memory, count);
    trial.adds_those_before(
        "Overlay::add_source",
        new,
        |it| it.add_source(&shape, clip),
        PATHS,
        first,
    )
}

#[test]
fn adders_that_keep_all_points(rt: HostRuntime) -> Result<(), Fail> {
    at_a_width!(rt, check_keeping)
}

fn check_reinit<I: Width>(trial: &Trial<'_, impl Abort>) -> Result<(), Fail> {
    let memory = trial.memory;
    let shape = squares::<I>(memory, PATHS)?;
    trial.adds_those_before(
        "Overlay::reinit_with_subj_and_clip",
        || builder(memory, 0),
        |it| it.reinit_with_subj_and_clip(&shape, &shape),
        2 * PATHS,
        |count| of_both(memory, count),
    )?;
    trial.adds_those_before(
        "Overlay::reinit_with_subj",
        || builder(memory, 0),
        |it| it.reinit_with_subj(&shape),
        PATHS,
        |count| of_both(memory, count),
    )
}

#[test]
fn reinit_of_overlay(rt: HostRuntime) -> Result<(), Fail> {
    at_a_width!(rt, check_reinit)
}

fn check_constructors<I: Width>(trial: &Trial<'_, impl Abort>) -> Result<(), Fail> {
    let memory = trial.memory;
    let (options, solver) = (IntOverlayOptions::default(), Solver::ABSOLUTE);
    let (shape, shapes) = (squares::<I>(memory, PATHS)?, lone_squares::<I>(memory)?);
    let (none, subj) = (|| of_both::<I>(memory, 0), || of_both::<I>(memory, PATHS));
    let both = || of_both::<I>(memory, 2 * PATHS);
    trial.makes("Overlay::new", none(), || Overlay::new(memory, 4))?;
    trial.makes("Overlay::new_custom", none(), || {
        Overlay::new_custom(memory, 4, options, solver)
    })?;
    trial.makes(
        "Overlay::from_subj",
        subj(),
        || Overlay::from_subj(memory, &shape),
    )?;
    trial.makes("Overlay::from_subj_custom", subj(), || {
        Overlay::from_subj_custom(memory, &shape, options, solver)
    })?;
    trial.makes("Overlay::from_subj_and_clip", both(), || {
        Overlay::from_subj_and_clip(memory, &shape, &shape)
    })?;
    trial.makes("Overlay::from_subj_and_clip_custom", both(), || {
        Overlay::from_subj_and_clip_custom(memory, &shape, &shape, options, solver)
    })?;
    trial.makes("Overlay::with_contours", both(), || {
        Overlay::with_contours(memory, &shape, &shape)
    })?;
    trial.makes("Overlay::with_contours_custom", both(), || {
        Overlay::with_contours_custom(memory, &shape, &shape, options, solver)
    })?;
    trial.makes("Overlay::with_shapes", both(), || {
        Overlay::with_shapes(memory, &shapes, &shapes)
    })?;
    trial.makes("Overlay::with_shapes_options", both(), || {
        Overlay::with_shapes_options(memory, &shapes, &shapes, options, solver)
    })?;
    let (subj, clip) = (square(0, 2), square_at(0));
    trial.makes("Overlay::with_contour", builder::<I>(memory, 1), || {
        Overlay::with_contour(memory, &subj, &clip)
    })?;
    trial.makes(
        "Overlay::with_contour_custom",
        builder::<I>(memory, 1),
        || { Overlay::with_contour_custom(memory, &subj, &clip, options, solver) },
    )
}

#[test]
fn constructors_of_overlay(rt: HostRuntime) -> Result<(), Fail> {
    at_a_width!(rt, check_constructors)
}
