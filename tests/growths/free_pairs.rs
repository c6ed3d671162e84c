//! Free functions of `overlay_pairs` and of `overlay_parts`, and one of `overlay_order`, which stands below them.

use crate::figures::{Width, point};
use crate::refusals::{Answer, Memory, Trial};
use i_overlay::i_float::int::point::IntPoint;
use overlay_order::count::ShapeCountBoolean;
use overlay_order::edge::CountedEdge;
use overlay_order::gather::take_in_order;
use overlay_pairs::changed::{changes_between, find_open};
use overlay_pairs::settle::count_settled;
use overlay_pairs::strips::{points_by_strips, strips_of};
use overlay_parts::parting::parts_by_lines;
use std::process::Abort;
use std::test::Fail;

// Number of edges, so many that strips are made of them.
const COUNT: usize = 200;

type Edges<'m, I> = Vec<CountedEdge<I, ShapeCountBoolean>, Memory<'m>>;

// Flat edges above each other, and before them a steep one that crosses all.
fn crossed<I: Width>(memory: Memory<'_>) -> Answer<Edges<'_, I>> {
    let mut edges = Vec::with_capacity(memory, COUNT)?;
    let mut height = 0;
    for place in 0..COUNT {
        let end = if place == 0 { 300 } else { height };
        edges.push(CountedEdge {
            a: point(0, height),
            b: point(1, end),
            count: ShapeCountBoolean { subj: 1, clip: 0 },
        })?;
        height += 1;
    }
    Ok(edges)
}

// The first edge alone is no edge of the list before, so it alone changed.
fn check_pairs<I: Width>(trial: &Trial<'_, impl Abort>) -> Result<(), Fail> {
    let memory = trial.memory;
    let edges = crossed::<I>(memory)?;
    let strips = trial.refuse_call("overlay_pairs::strips_of", || strips_of(memory, &edges))?;
    assert!(trial.rt; strips.is_some());
    let mut is_open = Vec::new(memory);
    is_open.resize(COUNT - 1, false)?;
    let changed = trial.refuse_call("overlay_pairs::changes_between", || {
        changes_between(memory, &edges, &edges[1..], &is_open)
    })?;
    let count = trial.refuse_call("overlay_pairs::count_settled", || {
        count_settled(memory, &edges, &strips, &changed)
    })?;
    assert!(trial.rt; count == 0);
    for known in [None, changed] {
        let found = trial.refuse_call("overlay_pairs::find_open", || {
            let mut near = Vec::new(memory);
            find_open(&mut near, &edges, &strips, &known, 0).map(|_| near.len())
        })?;
        assert!(trial.rt; found == COUNT - 1);
    }
    Ok(())
}

#[test]
fn functions_of_pairs(rt: HostRuntime) -> Result<(), Fail> {
    at_a_width!(rt, check_pairs)
}

// A strip of three points is sorted by their heights.
fn check_order<I: Width>(trial: &Trial<'_, impl Abort>) -> Result<(), Fail> {
    let memory = trial.memory;
    let points: [IntPoint<I>; 3] = [point(0, 0), point(1, 2), point(2, 1)];
    let sorted = trial.refuse_call("overlay_pairs::points_by_strips", || {
        points_by_strips(memory, &points, 3)
    })?;
    assert!(trial.rt; sorted[..] == [points[0], points[2], points[1]][..]);
    trial.refuse_each(
        "overlay_order::take_in_order",
        || Ok(Vec::from_array(memory, points)?),
        |it| take_in_order(it, &[2usize, 0, 1], |place| *place),
        |it| Ok(it[..] == points[..]),
    )
}

#[test]
fn functions_of_order(rt: HostRuntime) -> Result<(), Fail> {
    at_a_width!(rt, check_order)
}

// Two edges overlap: the middle one of their three parts is of both.
fn check_parts<I: Width>(trial: &Trial<'_, impl Abort>) -> Result<(), Fail> {
    let memory = trial.memory;
    let edge = |from, to| CountedEdge {
        a: point::<I>(from, 0),
        b: point(to, 0),
        count: ShapeCountBoolean { subj: 1, clip: 0 },
    };
    let edges = [edge(0, 2), edge(1, 3)];
    let parts = trial.refuse_call("overlay_parts::parts_by_lines", || {
        parts_by_lines(memory, &edges, &mut ())
    })?;
    assert!(trial.rt; parts.len() == 3 && parts[1].cover == 2);
    Ok(())
}

#[test]
fn functions_of_parts(rt: HostRuntime) -> Result<(), Fail> {
    at_a_width!(rt, check_parts)
}
