//! What a builder of edges is asked.

use super::EdgeOverlay;
use crate::core::edge_data::{EdgeDataMerge, OverlayEdgeData};
use crate::core::fill_rule::FillRule;
use crate::core::integer::OverlayInt;
use crate::core::overlay::{IntOverlayOptions, Overlay, ShapeType};
use crate::core::overlay_rule::OverlayRule;
use crate::engine::closed::closed_walks;
use crate::engine::lists::with_room;
use crate::engine::traced::{Lines, Trace};
use crate::error::{answered, OverlayError};
use crate::ffi::Source;
use crate::i_shape::int::shape::IntShapes;
use crate::segm::boolean::ShapeCountBoolean;
use crate::vector::edge::{DataVectorEdge, DataVectorShape};
use crate::vector::shapes_by;
use alloc::vec::Vec;

impl<I: OverlayInt, D: OverlayEdgeData> EdgeOverlay<I, D> {
    /// The edges of the arrangement where the rules hold on just one side, with their filled sides and data, in order.
    /// Each runs from its smaller to its larger end. The edges that were added need not make contours.
    ///
    /// # Errors
    /// `Memory`; `OutOfRange`, of `i64` alone; `TooManyEdges`; `NotSettled`, of `Solver::ROUNDS` alone.
    pub fn try_build_vectors(
        &mut self,
        overlay_rule: OverlayRule,
        fill_rule: FillRule,
    ) -> Result<Vec<DataVectorEdge<I, D>>, OverlayError> {
        let lines = Lines {
            ends: &self.ends,
            sides: &self.sides,
        };
        let found = Trace::of(overlay_rule, fill_rule, self.solver, lines)?;
        let mut edges = with_room(found.len())?;
        for (&DataVectorEdge { a, b, fill, .. }, sources) in found.iter() {
            // (each edge has a source; had it none, that would be told)
            let data = derived(&self.carried, &self.sides, sources, &mut self.store);
            let data = data.ok_or(OverlayError::Other(u32::MAX))?;
            edges.push(DataVectorEdge { a, b, fill, data });
        }
        Ok(edges)
    }

    /// The edges of the arrangement where the rules hold on just one side, with their filled sides and data.
    ///
    /// # Panics
    /// Where [`Self::try_build_vectors`] is refused.
    #[track_caller]
    pub fn build_vectors(&mut self, overlay_rule: OverlayRule, fill_rule: FillRule) -> Vec<DataVectorEdge<I, D>> {
        answered(self.try_build_vectors(overlay_rule, fill_rule))
    }

    /// The shapes of an overlay as edges with their filled sides and data, seen on the way along each contour. Unless
    /// points of answers are kept, an edge that goes straight on from the one before it is joined with that one where
    /// their filled sides and their data are equal.
    ///
    /// # Errors
    /// As of [`Self::try_build_vectors`]; `NotClosed` where the edges of the subject, or those of the clip, do not make
    /// contours: where more of them leave a point than come to it.
    pub fn try_build_vector_shapes(
        &mut self,
        overlay_rule: OverlayRule,
        fill_rule: FillRule,
    ) -> Result<Vec<DataVectorShape<I, D>>, OverlayError> {
        let shapes = self.kept_shapes(overlay_rule, fill_rule)?;
        let edges = self.try_build_vectors(overlay_rule, fill_rule)?;
        let is_joined = !self.options.preserve_output_collinear;
        shapes_by(&shapes, &edges, is_joined, &mut self.store)
    }

    /// The shapes of an overlay as edges with their filled sides and data.
    ///
    /// # Panics
    /// Where [`Self::try_build_vector_shapes`] is refused.
    #[track_caller]
    pub fn build_vector_shapes(
        &mut self,
        overlay_rule: OverlayRule,
        fill_rule: FillRule,
    ) -> Vec<DataVectorShape<I, D>> {
        answered(self.try_build_vector_shapes(overlay_rule, fill_rule))
    }

    /// The shapes of the contours that the edges make, each step along one edge of the arrangement.
    fn kept_shapes(&self, rule: OverlayRule, fill: FillRule) -> Result<IntShapes<I>, OverlayError> {
        let options = IntOverlayOptions {
            preserve_input_collinear: true,
            preserve_output_collinear: true,
            ogc: false,
            ..self.options
        };
        let mut overlay = Overlay::new_custom(0, options, self.solver);
        for (side, shape_type) in [(0, ShapeType::Subject), (1, ShapeType::Clip)] {
            closed_walks(&self.ends, &self.sides, side, |walk| {
                overlay.try_add_source(walk, shape_type)
            })?;
        }
        overlay.try_overlay(rule, fill)
    }
}

/// The data of an edge that comes from added ones: that of each is reversed and split as the edge lies on it, and what
/// they give is merged, one after another.
fn derived<D: OverlayEdgeData>(carried: &[D], sides: &[u8], sources: &[Source], store: &mut D::Store) -> Option<D> {
    let mut all: Option<(ShapeCountBoolean, D)> = None;
    for source in sources {
        let (mut data, side) = (*carried.get(source.edge)?, *sides.get(source.edge)?);
        if source.is_reversed() {
            data = data.reversed(store);
        }
        if source.is_cut() {
            data = data.split(store);
        }
        let count = count_of(side, source.is_reversed());
        all = Some(match all {
            None => (count, data),
            Some((before, lhs_data)) => {
                let merge = EdgeDataMerge {
                    lhs_count: before,
                    rhs_count: count,
                    lhs_data,
                    rhs_data: data,
                };
                (sum_of(before, count), D::merge(merge, store))
            }
        });
    }
    all.map(|(_, data)| data)
}

/// The counts of one edge on a side.
fn count_of(side: u8, is_reversed: bool) -> ShapeCountBoolean {
    let times = if is_reversed { -1 } else { 1 };
    let (subj, clip) = if side == 0 { (times, 0) } else { (0, times) };
    ShapeCountBoolean { subj, clip }
}

/// The counts of an edge to which two are merged.
fn sum_of(one: ShapeCountBoolean, other: ShapeCountBoolean) -> ShapeCountBoolean {
    ShapeCountBoolean {
        subj: one.subj.saturating_add(other.subj),
        clip: one.clip.saturating_add(other.clip),
    }
}
