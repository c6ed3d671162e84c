//! Free functions of `overlay_given` and `overlay_contacts`, and the shared ends of `overlay_relate`.

use crate::figures::{Width, point};
use crate::refusals::Trial;
use overlay_arrange::content::Content;
use overlay_contacts::relations::given_relations;
use overlay_contacts::settled::settled_relations;
use overlay_exact::exact_int::ExactInt;
use overlay_exact::meetings::find_meetings;
use overlay_geom::fill_rule::FillRule;
use overlay_given::first::some_first_passes;
use overlay_given::relations::{find_contacts, interior_relations};
use overlay_given::sides::SideTest;
use overlay_given::uncrossed::{MeetingKind, meeting_kind};
use overlay_given::walk::find_sides;
use overlay_order::count::ShapeCountBoolean;
use overlay_order::edge::CountedEdge;
use overlay_relate::shared_end::has_shared_end;
use std::process::Abort;
use std::test::Fail;

// An edge between these points, with the counts of the subject and of the clip.
fn counted<I: Width>(ends: [i16; 4], subj: i32, clip: i32) -> CountedEdge<I, ShapeCountBoolean> {
    CountedEdge {
        a: point(ends[0], ends[1]),
        b: point(ends[2], ends[3]),
        count: ShapeCountBoolean { subj, clip },
    }
}

// A square of the subject from (0, 0) to (4, 4), and of the clip from (2, 2) to (6, 6). They cross in (2, 4), (4, 2),
// so four of their eight edges have two pieces. The clip's first edge begins inside the subject.
fn squares<I: Width>() -> [CountedEdge<I, ShapeCountBoolean>; 8] {
    [
        counted([0, 0, 0, 4], -1, 0),
        counted([0, 0, 4, 0], 1, 0),
        counted([0, 4, 4, 4], -1, 0),
        counted([2, 2, 2, 6], 0, -1),
        counted([2, 2, 6, 2], 0, 1),
        counted([2, 6, 6, 6], 0, -1),
        counted([4, 0, 4, 4], 1, 0),
        counted([6, 2, 6, 6], 0, 1),
    ]
}

fn check_relations<I: Width + ExactInt>(trial: &Trial<'_, impl Abort>) -> Result<(), Fail> {
    let memory = trial.memory;
    let edges = squares::<I>();
    let found = trial.refuse_call("overlay_given::interior_relations", || {
        interior_relations(memory, &edges, FillRule::NonZero)
    })?;
    assert!(trial.rt; found.interiors_intersect && !found.within && !found.covers);
    let met = find_meetings(memory, &edges)?;
    let sides = trial.refuse_call("overlay_given::find_sides", || {
        find_sides(memory, &edges, &met, FillRule::NonZero)
    })?;
    assert!(trial.rt; sides.pieces.len() == 12);
    let contacts = trial.refuse_call("overlay_given::find_contacts", || {
        find_contacts(memory, &edges, FillRule::NonZero)
    })?;
    assert!(trial.rt; contacts.beside_piece && !contacts.in_points);
    let told = trial.refuse_call("overlay_contacts::given_relations", || {
        given_relations(memory, &edges, FillRule::NonZero)
    })?;
    assert!(trial.rt; told.intersects && told.interiors_intersect && !told.covers);
    let kind = trial.refuse_call("overlay_given::meeting_kind", || {
        meeting_kind(memory, &edges)
    })?;
    assert!(trial.rt; kind == MeetingKind::Crossed);
    let passes = trial.refuse_call("overlay_given::some_first_passes", || {
        some_first_passes(memory, &edges, FillRule::NonZero, SideTest::BothShapes)
    })?;
    assert!(trial.rt; passes);
    Ok(())
}

// A triangle of the subject and one of the clip, which share the corner (2, 2).
fn check_settled<I: Width + ExactInt>(trial: &Trial<'_, impl Abort>) -> Result<(), Fail> {
    let mut content = Content::with_capacity(trial.memory, 6)?;
    for edge in [
        counted::<I>([0, 0, 2, 0], 1, 0),
        counted([0, 0, 2, 2], -1, 0),
        counted([2, 0, 2, 2], 1, 0),
        counted([2, 2, 4, 2], 0, 1),
        counted([2, 2, 4, 4], 0, -1),
        counted([4, 2, 4, 4], 0, 1),
    ] {
        content.push(edge)?;
    }
    let told = trial.refuse_call("overlay_contacts::settled_relations", || {
        settled_relations(&content, FillRule::NonZero)
    })?;
    assert!(trial.rt; told.point_intersects && told.touches && !told.disjoint);
    let graph = content.graph(FillRule::NonZero)?;
    let is_shared = trial.refuse_call("overlay_relate::has_shared_end", || has_shared_end(&graph))?;
    assert!(trial.rt; is_shared);
    Ok(())
}

#[test]
fn relations_of_settled_edges(rt: HostRuntime) -> Result<(), Fail> {
    at_a_width!(rt, check_settled)
}

#[test]
fn relations_of_edges_as_given(rt: HostRuntime) -> Result<(), Fail> {
    at_a_width!(rt, check_relations)
}
