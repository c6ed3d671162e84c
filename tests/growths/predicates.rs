//! `PredicateOverlay`.

use crate::figures::{PATHS, Width, point, square};
use crate::refusals::{Answer, Memory, Trial};
use crate::seen::{Seen, is_failed};
use i_overlay::fill_rule::FillRule;
use i_overlay::i_float::int::point::IntPoint;
use i_overlay::i_shape::int::shape::{IntShape, IntShapes};
use i_overlay::overlay::ShapeType;
use i_overlay::relate::PredicateOverlay;
use i_overlay::solver::Solver;
use std::process::Abort;
use std::test::Fail;

const CLIP: ShapeType = ShapeType::Clip;

type Built<'m, I> = PredicateOverlay<I, Memory<'m>>;

// The predicates show the content: each clip below changes their answers.
impl<'m, I: Width> Seen for PredicateOverlay<I, Memory<'m>> {
    type Content = [bool; 6];

    fn content(&mut self) -> Answer<[bool; 6]> {
        Ok([
            self.intersects()?,
            self.interiors_intersect()?,
            self.touches()?,
            self.point_intersects()?,
            self.within()?,
            self.covers()?,
        ])
    }
}

// The square of the subject.
fn subject<I: Width>() -> [IntPoint<I>; 4] {
    square(0, 4)
}

// A clip that meets it in a point, a clip along its border, and a clip inside it.
fn clip_at<I: Width>(place: usize) -> [IntPoint<I>; 4] {
    match place {
        0 => square(4, 6),
        1 => [point(4, 0), point(6, 0), point(6, 2), point(4, 2)],
        _ => square(1, 2),
    }
}

fn clips<I: Width>(memory: Memory<'_>) -> Answer<IntShape<I, Memory<'_>>> {
    let mut shape = Vec::new(memory);
    for place in 0..PATHS {
        shape.push(Vec::from_array(memory, clip_at(place))?)?;
    }
    Ok(shape)
}

fn lone_clips<I: Width>(memory: Memory<'_>) -> Answer<IntShapes<I, Memory<'_>>> {
    let mut shapes = Vec::new(memory);
    for contour in clips(memory)? {
        shapes.push(Vec::from_array(memory, [contour])?)?;
    }
    Ok(shapes)
}

// Room for the subject, and for two edges of a clip: a growth is refused halfway.
const ROOM: usize = 6;

// A builder with the subject and the first clips.
fn builder<I: Width>(memory: Memory<'_>, count: usize) -> Answer<Built<'_, I>> {
    let mut overlay = PredicateOverlay::new(memory, ROOM)?;
    overlay.add_contour(&subject(), ShapeType::Subject)?;
    for place in 0..count {
        overlay.add_contour(&clip_at(place), CLIP)?;
    }
    Ok(overlay)
}

// A builder with the first of a subject and the clips.
fn of_both<I: Width>(memory: Memory<'_>, count: usize) -> Answer<Built<'_, I>> {
    if count == 0 {
        return PredicateOverlay::new(memory, 0);
    }
    builder(memory, count - 1)
}

// A builder after each predicate was asked.
fn asked<I: Width>(memory: Memory<'_>, count: usize) -> Answer<Built<'_, I>> {
    let mut overlay = builder(memory, count)?;
    overlay.content()?;
    Ok(overlay)
}

// Refuses the growths of an adder of all clips.
fn adds_all<'m, I: Width, C: Fn(&mut Built<'m, I>) -> Answer<()> + Drop>(
    trial: &Trial<'m, impl Abort>,
    name: &str,
    add: C,
) -> Result<(), Fail> {
    let first = |count| builder::<I>(trial.memory, count);
    trial.adds_those_before(name, || first(0), add, PATHS, first)
}

// The subject as a shape.
fn subjects<I: Width>(memory: Memory<'_>) -> Answer<IntShape<I, Memory<'_>>> {
    Ok(Vec::from_array(memory, [Vec::from_array(memory, subject())?])?)
}

fn check_adders<I: Width>(trial: &Trial<'_, impl Abort>) -> Result<(), Fail> {
    let memory = trial.memory;
    let new = || builder::<I>(memory, 0);
    let more = clip_at::<I>(0);
    trial.adds_or_keeps("PredicateOverlay::add_contour", new, |it| {
        it.add_contour(&more, CLIP)
    })?;
    trial.adds_or_keeps("PredicateOverlay::add_path_iter", new, |it| {
        it.add_path_iter(more.iter().copied(), CLIP)
    })?;
    let was_asked = || asked::<I>(memory, 0);
    trial.adds_or_keeps("PredicateOverlay::add_contour", was_asked, |it| {
        it.add_contour(&more, CLIP)
    })?;
    let (shape, shapes) = (clips::<I>(memory)?, lone_clips::<I>(memory)?);
    adds_all::<I, _>(
        trial,
        "PredicateOverlay::add_source",
        |it| it.add_source(&shape, CLIP),
    )?;
    adds_all::<I, _>(trial, "PredicateOverlay::add_contours", |it| {
        it.add_contours(&shape, CLIP)
    })?;
    adds_all::<I, _>(
        trial,
        "PredicateOverlay::add_shape",
        |it| it.add_shape(&shape, CLIP),
    )?;
    adds_all::<I, _>(
        trial,
        "PredicateOverlay::add_shapes",
        |it| it.add_shapes(&shapes, CLIP),
    )?;
    let subj = subjects::<I>(memory)?;
    trial.adds_those_before(
        "PredicateOverlay::reinit_with_subj_and_clip",
        new,
        |it| it.reinit_with_subj_and_clip(&subj, &shape),
        1 + PATHS,
        |count| of_both(memory, count),
    )
}

#[test]
fn adders_of_predicate_overlay(rt: HostRuntime) -> Result<(), Fail> {
    at_a_width!(rt, check_adders)
}

fn check_constructors<I: Width>(trial: &Trial<'_, impl Abort>) -> Result<(), Fail> {
    let memory = trial.memory;
    let subj = subjects::<I>(memory)?;
    let clip = clips::<I>(memory)?;
    let all = || builder::<I>(memory, PATHS);
    trial.makes("PredicateOverlay::new", of_both::<I>(memory, 0), || {
        PredicateOverlay::new(memory, 4)
    })?;
    trial.makes("PredicateOverlay::from_subj_and_clip", all(), || {
        PredicateOverlay::from_subj_and_clip(memory, &subj, &clip)
    })?;
    trial.makes("PredicateOverlay::from_subj_and_clip_custom", all(), || {
        let (rule, solver) = (FillRule::EvenOdd, Solver::ABSOLUTE);
        PredicateOverlay::from_subj_and_clip_custom(memory, &subj, &clip, rule, solver)
    })
}

#[test]
fn constructors_of_predicate_overlay(rt: HostRuntime) -> Result<(), Fail> {
    at_a_width!(rt, check_constructors)
}

// Returns whether each call that does not clear answers that the builder has failed.
fn has_failed<I: Width>(
    it: &mut Built<'_, I>,
    shape: &IntShape<I, Memory<'_>>,
    shapes: &IntShapes<I, Memory<'_>>,
) -> bool {
    let more = clip_at(0);
    is_failed(it.add_contour(&more, CLIP))
        && is_failed(it.add_path_iter(more.iter().copied(), CLIP))
        && is_failed(it.add_source(shape, CLIP))
        && is_failed(it.add_contours(shape, CLIP))
        && is_failed(it.add_shape(shape, CLIP))
        && is_failed(it.add_shapes(shapes, CLIP))
        && is_failed(it.intersects())
        && is_failed(it.interiors_intersect())
        && is_failed(it.touches())
        && is_failed(it.point_intersects())
        && is_failed(it.within())
        && is_failed(it.covers())
        && is_failed(it.relations())
}

// Refuses the growths of a predicate.
fn refuses<
    'm,
    I: Width,
    T: PartialEq + Drop,
    P: Fn() -> Answer<Built<'m, I>> + Drop,
    Q: Fn(&mut Built<'m, I>) -> Answer<T> + Drop,
>(trial: &Trial<'m, impl Abort>, name: &str, prepare: P, query: Q) -> Result<(), Fail> {
    let memory = trial.memory;
    let (shape, shapes) = (clips::<I>(memory)?, lone_clips::<I>(memory)?);
    trial.answers_or_fails(
        name,
        prepare,
        query,
        |it| has_failed(it, &shape, &shapes),
        |it| {
            it.clear();
            it.add_contour(&subject(), ShapeType::Subject)?;
            it.add_source(&shape, CLIP)
        },
    )
}

fn check_predicates<'m, I: Width>(trial: &Trial<'m, impl Abort>) -> Result<(), Fail> {
    let memory = trial.memory;
    let new = || builder::<I>(memory, PATHS);
    refuses::<I, _, _, _>(trial, "PredicateOverlay::intersects", new, |it| {
        it.intersects()
    })?;
    refuses::<I, _, _, _>(trial, "PredicateOverlay::interiors_intersect", new, |it| {
        it.interiors_intersect()
    })?;
    refuses::<I, _, _, _>(trial, "PredicateOverlay::touches", new, |it| it.touches())?;
    refuses::<I, _, _, _>(trial, "PredicateOverlay::point_intersects", new, |it| {
        it.point_intersects()
    })?;
    refuses::<I, _, _, _>(trial, "PredicateOverlay::within", new, |it| it.within())?;
    refuses::<I, _, _, _>(trial, "PredicateOverlay::covers", new, |it| it.covers())?;
    refuses::<I, _, _, _>(trial, "PredicateOverlay::relations", new, |it| {
        it.relations()
    })?;
    check_mended::<I>(trial)
}

// What mends the failed builder is the call that puts other contours in the place of those that it held.
fn check_mended<'m, I: Width>(trial: &Trial<'m, impl Abort>) -> Result<(), Fail> {
    let memory = trial.memory;
    let (subj, shape, shapes) = (
        subjects::<I>(memory)?,
        clips::<I>(memory)?,
        lone_clips::<I>(memory)?,
    );
    trial.answers_or_fails(
        "PredicateOverlay::relations",
        || builder::<I>(memory, PATHS),
        |it| it.relations(),
        |it| has_failed(it, &shape, &shapes),
        |it| it.reinit_with_subj_and_clip(&subj, &shape),
    )
}

#[test]
fn predicates_of_predicate_overlay(rt: HostRuntime) -> Result<(), Fail> {
    at_a_width!(rt, check_predicates)
}

// Answers of all predicates, found once, serve each without memory; under another rule they do not.
fn check_asked_again<'m, I: Width>(trial: &Trial<'m, impl Abort>) -> Result<(), Fail> {
    let memory = trial.memory;
    let mut overlay = builder::<I>(memory, PATHS)?;
    overlay.within()?;
    overlay.covers()?;
    let again = trial.needs_none("PredicateOverlay, asked again", || overlay.content())?;
    let mut wanted = builder::<I>(memory, PATHS)?;
    assert!(trial.rt; again == wanted.content()?);
    let all = trial.needs_none("PredicateOverlay, all at once", || overlay.relations())?;
    assert!(trial.rt; all == wanted.relations()?);
    let under_another_rule = || {
        let mut overlay = asked::<I>(memory, PATHS)?;
        overlay.fill_rule = FillRule::Negative;
        Ok(overlay)
    };
    refuses::<I, _, _, _>(
        trial,
        "PredicateOverlay::interiors_intersect, under another rule",
        under_another_rule,
        |it| it.interiors_intersect(),
    )
}

#[test]
fn predicates_asked_again(rt: HostRuntime) -> Result<(), Fail> {
    at_a_width!(rt, check_asked_again)
}
