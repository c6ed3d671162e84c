//! Free functions of `overlay_exact`.

use crate::figures::{Width, point};
use crate::refusals::{Answer, Memory, Trial};
use overlay_exact::along::{push_met, sort_along};
use overlay_exact::exact_int::ExactInt;
use overlay_exact::meetings::{find_meetings, find_met_of};
use overlay_exact::met::MetAlong;
use overlay_exact::point_windings::{live_at_start, windings_at_points};
use overlay_geom::edge::IntEdge;
use overlay_order::count::ShapeCountBoolean;
use overlay_order::edge::CountedEdge;
use std::process::Abort;
use std::test::Fail;

// Number of edges that cross a level one, so many that sorting takes memory.
const COUNT: usize = 100;

// Distance from each to the next, modulo the span.
const STRIDE: i16 = 37;

// Width of the span in which they stand.
const SPAN: i16 = 101;

// The meeting points of a level edge with upright ones, neither from left to right nor from right to left.
fn all_met<I: Width + ExactInt>(memory: Memory<'_>) -> Answer<Vec<MetAlong<I::Wide>, Memory<'_>>> {
    let level = IntEdge {
        a: point::<I>(0, 0),
        b: point(200, 0),
    };
    let mut met = Vec::new(memory);
    let mut x = 0;
    for other in 0..COUNT {
        let upright = IntEdge {
            a: point(x, -1),
            b: point(x, 1),
        };
        push_met(&mut met, level, upright, other)?;
        x = (x + STRIDE) % SPAN;
    }
    Ok(met)
}

fn check_along<I: Width + ExactInt>(trial: &Trial<'_, impl Abort>) -> Result<(), Fail> {
    let memory = trial.memory;
    let level = IntEdge {
        a: point::<I>(0, 0),
        b: point(4, 0),
    };
    let upright = IntEdge {
        a: point(1, -1),
        b: point(1, 1),
    };
    trial.refuse_each(
        "overlay_exact::push_met",
        || Ok(Vec::new(memory)),
        |met| push_met(met, level, upright, 3),
        |met| Ok(met.is_empty()),
    )?;
    trial.refuse_each(
        "overlay_exact::sort_along",
        || all_met::<I>(memory),
        |met| sort_along::<I, _>(met),
        |met| Ok(met.len() == COUNT),
    )
}

// The edge of a subject between these points.
fn counted<I: Width>(ax: i16, ay: i16, bx: i16, by: i16) -> CountedEdge<I, ShapeCountBoolean> {
    CountedEdge {
        a: point(ax, ay),
        b: point(bx, by),
        count: ShapeCountBoolean { subj: 1, clip: 0 },
    }
}

fn check_meetings<I: Width + ExactInt>(trial: &Trial<'_, impl Abort>) -> Result<(), Fail> {
    let memory = trial.memory;
    let edges = [
        counted::<I>(0, 0, 4, 4),
        counted(0, 4, 4, 0),
        counted(2, 0, 2, 4),
    ];
    let found = trial.refuse_call("overlay_exact::find_meetings", || {
        find_meetings(memory, &edges)
    })?;
    assert!(trial.rt; found.met.len() == 6);
    let of_one = trial.refuse_call("overlay_exact::find_met_of", || {
        find_met_of(memory, &edges, 1)
    })?;
    assert!(trial.rt; of_one.len() == 2);
    let begun = trial.refuse_each(
        "overlay_exact::live_at_start",
        || Ok(Vec::new(memory)),
        |live| live_at_start(live, &edges, 0, 0),
        |live| Ok(live.is_empty()),
    )?;
    assert!(trial.rt; begun == 2);
    let points = [point::<I>(1, 4), point(3, 2)];
    let wound = trial.refuse_call("overlay_exact::windings_at_points", || {
        windings_at_points(memory, &edges, &points)
    })?;
    assert!(trial.rt; wound[0].subj == 2 && wound[1].subj == 1);
    Ok(())
}

#[test]
fn functions_of_lists_of_edges(rt: HostRuntime) -> Result<(), Fail> {
    at_a_width!(rt, check_meetings)
}

#[test]
fn functions_of_meeting_points(rt: HostRuntime) -> Result<(), Fail> {
    at_a_width!(rt, check_along)
}
