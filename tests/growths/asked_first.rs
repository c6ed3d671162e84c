//! First and second queries of a `PredicateOverlay`: told by one edge, by sides alone, and by ends.

use crate::figures::{Width, square};
use crate::refusals::{Answer, Memory, Trial};
use crate::seen::is_failed;
use i_overlay::fill_rule::FillRule;
use i_overlay::i_float::int::point::IntPoint;
use i_overlay::overlay::ShapeType;
use i_overlay::relate::PredicateOverlay;
use std::process::Abort;
use std::test::Fail;

const PREDICATES: usize = 6;

type Built<'m, I> = PredicateOverlay<I, Memory<'m>>;

// A clip that shares a corner with the subject, one that overlaps it, and one that equals it.
fn clip_at<I: Width>(place: usize) -> [IntPoint<I>; 4] {
    match place {
        0 => square(4, 6),
        1 => square(2, 6),
        _ => square(0, 4),
    }
}

fn add<I: Width>(it: &mut Built<'_, I>, place: usize) -> Answer<()> {
    it.add_contour(&square(0, 4), ShapeType::Subject)?;
    it.add_contour(&clip_at(place), ShapeType::Clip)
}

fn builder<I: Width>(memory: Memory<'_>, place: usize) -> Answer<Built<'_, I>> {
    let mut overlay = PredicateOverlay::new(memory, 0)?;
    add(&mut overlay, place)?;
    Ok(overlay)
}

fn ask<I: Width>(it: &mut Built<'_, I>, number: usize) -> Answer<bool> {
    match number {
        0 => it.intersects(),
        1 => it.interiors_intersect(),
        2 => it.touches(),
        3 => it.point_intersects(),
        4 => it.within(),
        _ => it.covers(),
    }
}

// Refuses the growths of a query.
fn refuses<'m, I: Width, P: Fn() -> Answer<Built<'m, I>> + Drop>(
    trial: &Trial<'m, impl Abort>,
    name: &str,
    place: usize,
    number: usize,
    prepare: P,
) -> Result<(), Fail> {
    trial.answers_or_fails(
        name,
        prepare,
        |it| ask(it, number),
        |it| is_failed(it.relations()),
        |it| {
            it.clear();
            add(it, place)
        },
    )
}

fn check_first<'m, I: Width>(trial: &Trial<'m, impl Abort>) -> Result<(), Fail> {
    let memory = trial.memory;
    for place in 0..3 {
        for number in 0..PREDICATES {
            refuses::<I, _>(trial, "a first query", place, number, || {
                builder(memory, place)
            })?;
        }
    }
    Ok(())
}

#[test]
fn first_queries(rt: HostRuntime) -> Result<(), Fail> {
    at_a_width!(rt, check_first)
}

// After a first query that one edge told, a second query finds the answers of all.
fn check_second<'m, I: Width>(trial: &Trial<'m, impl Abort>) -> Result<(), Fail> {
    let memory = trial.memory;
    for first in 0..PREDICATES {
        let mut told = builder::<I>(memory, 1)?;
        let answer = ask(&mut told, first)?;
        let again = trial.needs_none("the first query again", || ask(&mut told, first))?;
        assert!(trial.rt; again == answer);
        let second = (first + 1) % PREDICATES;
        refuses::<I, _>(trial, "a second query", 1, second, || {
            let mut overlay = builder(memory, 1)?;
            ask(&mut overlay, first)?;
            Ok(overlay)
        })?;
        ask(&mut told, second)?;
        trial.needs_none("relations after a second query", || told.relations())?;
        let again = trial.needs_none("the first query after a second", || ask(&mut told, first))?;
        assert!(trial.rt; again == answer);
    }
    Ok(())
}

#[test]
fn second_queries(rt: HostRuntime) -> Result<(), Fail> {
    at_a_width!(rt, check_second)
}

// Under another rule the query is another one, though it asks for the same predicate.
fn check_other_rule<'m, I: Width>(trial: &Trial<'m, impl Abort>) -> Result<(), Fail> {
    let memory = trial.memory;
    for number in 0..PREDICATES {
        trial.answers_or_fails(
            "a second query under another rule",
            || {
                let mut overlay = builder::<I>(memory, 1)?;
                ask(&mut overlay, number)?;
                overlay.fill_rule = FillRule::Negative;
                Ok(overlay)
            },
            |it| ask(it, number),
            |it| is_failed(it.relations()),
            |it| {
                it.clear();
                add(it, 1)
            },
        )?;
    }
    Ok(())
}

#[test]
fn second_queries_under_another_rule(rt: HostRuntime) -> Result<(), Fail> {
    at_a_width!(rt, check_other_rule)
}

// Where no edge tells them, three predicates look at sides alone: they take less memory than those that sort ends.
fn check_ends<I: Width>(trial: &Trial<'_, impl Abort>) -> Result<(), Fail> {
    let memory = trial.memory;
    let taken = |place, number| {
        let overlay = builder::<I>(memory, place)?;
        trial.requests_of(overlay, &|it: &mut Built<'_, I>| ask(it, number))
    };
    let by_sides = taken(0, 1)?;
    assert!(trial.rt; by_sides < taken(0, 0)? && by_sides < taken(0, 2)?);
    assert!(trial.rt; by_sides < taken(0, 3)?);
    assert!(trial.rt; taken(2, 4)? == taken(2, 5)?);
    assert!(trial.rt; taken(2, 4)? > taken(2, 1)?);
    Ok(())
}

#[test]
fn ends_are_sorted_only_where_they_tell(rt: HostRuntime) -> Result<(), Fail> {
    at_a_width!(rt, check_ends)
}
