//! `EdgeOverlay`.

ghost use Rattle.std.specs.Prelude.{⊤};

use crate::figures::{Width, square, square_at};
use crate::refusals::{Answer, Memory, PLENTY, Trial};
use crate::seen::{Seen, is_failed};
use i_overlay::edge_data::{EdgeDataMerge, OverlayEdgeData};
use i_overlay::edge_overlay::{EdgeOverlay, InputEdge};
use i_overlay::fill_rule::FillRule;
use i_overlay::i_float::int::point::IntPoint;
use i_overlay::overlay::ShapeType;
use i_overlay::overlay_rule::OverlayRule;
use i_overlay::segm::boolean::ShapeCountBoolean;
use i_overlay::string::line::IntLine;
use i_overlay::vector::edge::DataVectorEdge;
use std::process::Abort;
use std::test::Fail;

const UNION: OverlayRule = OverlayRule::Union;

const RULE: FillRule = FillRule::NonZero;

const CLIP: ShapeType = ShapeType::Clip;

// Data whose store counts the times that an edge was reversed.
#[derive(Debug, Clone, Copy, PartialEq, Eq)]
struct Street(u8);

impl OverlayEdgeData for Street {
    type Store = usize;

    ghost merges = { λ _ _ _ _ _. ⊤ };

    fn merge(merge: EdgeDataMerge<ShapeCountBoolean, Street>, _store: &mut usize) -> Street {
        merge.lhs_data
    }

    fn split(self, _store: &mut usize) -> Street {
        self
    }

    fn reversed(self, store: &mut usize) -> Street {
        *store = store.saturating_add(1);
        Street(100 - self.0)
    }
}

type Built<'m, I> = EdgeOverlay<I, Street, Memory<'m>>;

// State of a builder: number of times that an edge was reversed, the held edges, and these edges with their data. The
// union leaves out none.
#[derive(PartialEq, Drop)]
struct Held<'m, I: Width> {
    turned: usize,
    lines: Vec<IntLine<I>, Memory<'m>>,
    edges: Vec<DataVectorEdge<I, Street>, Memory<'m>>,
}

impl<'m, I: Width> Seen for EdgeOverlay<I, Street, Memory<'m>> {
    type Content = Held<'m, I>;

    fn content(&mut self) -> Answer<Held<'m, I>> {
        let (edges, turned) = (self.build_vectors(UNION, RULE)?, *self.data_store());
        let mut lines = Vec::new(*edges.allocator());
        for line in self.edges() {
            lines.push(line)?;
        }
        Ok(Held {
            turned,
            lines,
            edges,
        })
    }
}

// The four edges of a contour: two of them run from their larger ends.
fn edges_of<I: Width>(contour: [IntPoint<I>; 4]) -> [InputEdge<I, Street>; 4] {
    let [a, b, c, d] = contour;
    let edge = |a, b, number| InputEdge {
        a,
        b,
        edge_data: Street(number),
    };
    [edge(a, b, 1), edge(b, c, 2), edge(c, d, 3), edge(d, a, 4)]
}

// A builder with the square of a subject, the first edges of another square, and no room for more.
fn builder<I: Width>(memory: Memory<'_>, count: usize) -> Answer<Built<'_, I>> {
    let mut overlay = EdgeOverlay::new(memory, 0)?;
    for edge in edges_of(square(0, 2)) {
        overlay.add_edge(edge, ShapeType::Subject)?;
    }
    for edge in edges_of(square_at(0)).iter().take(count) {
        overlay.add_edge(*edge, CLIP)?;
    }
    Ok(overlay)
}

fn check_adders<I: Width>(trial: &Trial<'_, impl Abort>) -> Result<(), Fail> {
    let memory = trial.memory;
    let [_, _, turned, _] = edges_of::<I>(square_at(0));
    trial.adds_or_keeps(
        "EdgeOverlay::add_edge",
        || builder::<I>(memory, 0),
        |it| it.add_edge(turned, CLIP),
    )?;
    // (enough edges that some are added before there is no room)
    let edges = edges_of::<I>(square_at(0));
    trial.adds_those_before(
        "EdgeOverlay::add_edges",
        || EdgeOverlay::new(memory, 3),
        |it| it.add_edges(edges.iter().copied(), CLIP),
        4,
        |count| {
            let mut overlay = EdgeOverlay::new(memory, 0)?;
            for edge in edges.iter().take(count) {
                overlay.add_edge(*edge, CLIP)?;
            }
            Ok(overlay)
        },
    )?;
    let mut made: Built<'_, I> = trial.refuse_call("EdgeOverlay::new", || {
        EdgeOverlay::new(memory, 4)
    })?;
    let held = made.content()?;
    assert!(trial.rt; held.turned == 0 && held.lines.is_empty() && held.edges.is_empty());
    Ok(())
}

#[test]
fn adders_of_edge_overlay(rt: HostRuntime) -> Result<(), Fail> {
    at_a_width!(rt, check_adders)
}

// Refuses the growths of a query, of a builder with `count` edges of a clip, closed or open. The builder has then
// failed for good, and each call answers so.
fn refuses<'m, I: Width, T: PartialEq + Drop, Q: Fn(&mut Built<'m, I>) -> Answer<T> + Drop>(
    trial: &Trial<'m, impl Abort>,
    name: &str,
    count: usize,
    query: Q,
) -> Result<T, Fail> {
    let memory = trial.memory;
    let edges = edges_of::<I>(square(0, 2));
    let [edge, _, _, _] = edges;
    trial.refuse_each(
        name,
        || builder::<I>(memory, count),
        &query,
        |it| {
            let is_asked_again = is_failed(query(it));
            memory.grant(0);
            let has_failed = is_failed(it.add_edge(edge, CLIP))
                && is_failed(it.add_edges(edges.iter().copied(), CLIP))
                && is_failed(it.build_vectors(UNION, RULE))
                && is_failed(it.build_vector_shapes(UNION, RULE));
            memory.grant(PLENTY);
            Ok(is_asked_again && has_failed)
        },
    )
}

fn check_queries<I: Width>(trial: &Trial<'_, impl Abort>) -> Result<(), Fail> {
    let vectors = refuses::<I, _, _>(trial, "EdgeOverlay::build_vectors", 3, |it| {
        it.build_vectors(UNION, RULE)
    })?;
    assert!(trial.rt; vectors.len() == 7);
    let shapes = refuses::<I, _, _>(trial, "EdgeOverlay::build_vector_shapes", 4, |it| {
        it.build_vector_shapes(UNION, RULE)
    })?;
    assert!(trial.rt; shapes.len() == 2);
    Ok(())
}

#[test]
fn queries_of_edge_overlay(rt: HostRuntime) -> Result<(), Fail> {
    at_a_width!(rt, check_queries)
}
