//! Edges in, and edges with those that each comes from out.

use crate::core::fill_rule::FillRule;
use crate::core::overlay_rule::OverlayRule;
use crate::core::solver::Solver;
use crate::engine::lists::{edges_in, listed, ranges};
use crate::engine::width::{Native, Query};
use crate::error::OverlayError;
use crate::ffi::{coordinates_of, Engine, Given, Source};
use crate::i_float::int::point::IntPoint;
use crate::vector::edge::DataVectorEdge;
use ::core::marker::PhantomData;
use alloc::vec::Vec;

/// Given edges: both ends of each, and the numbers of their sides, 0 for the subject and 1 for the clip.
#[derive(Debug, Clone, Copy)]
pub(crate) struct Lines<'a, I: Native> {
    pub(crate) ends: &'a [IntPoint<I>],
    pub(crate) sides: &'a [u8],
}

/// Edges of an arrangement, with the given edges that each comes from.
#[derive(Debug)]
pub(crate) struct Trace<I: Native> {
    edges: Vec<DataVectorEdge<I>>,
    source_ends: Vec<usize>,
    sources: Vec<Source>,
}

/// The edges that a rule selects.
struct Tracing<'a, I> {
    rule: OverlayRule,
    fill: FillRule,
    solver: Solver,
    sides: &'a [u8],
    of: PhantomData<I>,
}

impl<I: Native> Query for Tracing<'_, I> {
    type Answer = Trace<I>;

    fn ask<E: Engine>(&self, ends: Given<'_, E::C>, _: Given<'_, E::C>) -> Result<Trace<I>, OverlayError> {
        let held = E::trace(self.rule, self.fill, self.solver, ends.coordinates, self.sides)?;
        Ok(Trace {
            edges: edges_in(held.coordinates(), held.fills())?,
            source_ends: listed(held.source_ends().len(), held.source_ends().iter().copied())?,
            sources: listed(held.sources().len(), held.sources().iter().copied())?,
        })
    }
}

impl<I: Native> Trace<I> {
    /// The edges of the arrangement of the lines that the rules select.
    pub(crate) fn of(
        rule: OverlayRule,
        fill: FillRule,
        solver: Solver,
        lines: Lines<'_, I>,
    ) -> Result<Self, OverlayError> {
        let given = Given {
            coordinates: coordinates_of(lines.ends),
            ends: &[],
        };
        let tracing = Tracing {
            rule,
            fill,
            solver,
            sides: lines.sides,
            of: PhantomData,
        };
        I::ask(&tracing, given, Given::NONE)
    }

    /// How many edges there are.
    pub(crate) fn len(&self) -> usize {
        self.edges.len()
    }

    /// Each edge with its sources.
    pub(crate) fn iter(&self) -> impl Iterator<Item = (&DataVectorEdge<I>, &[Source])> + '_ {
        let sources = ranges(&self.source_ends).map(|it| self.sources.get(it).unwrap_or_default());
        self.edges.iter().zip(sources)
    }
}
