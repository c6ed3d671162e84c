//! A view of an arrangement.

use crate::core::extract::BooleanExtractionBuffer;
use crate::core::fill_rule::FillRule;
use crate::core::hierarchy::FlatShapeHierarchy;
use crate::core::integer::OverlayInt;
use crate::core::overlay::queries::{edges_of_graph, flat_into, linked_of, Arranging};
use crate::core::overlay::Overlay;
use crate::core::overlay_rule::OverlayRule;
use crate::engine::lists::shapes_of;
use crate::engine::options::Options;
use crate::error::{answered, OverlayError};
use crate::ffi::Graph;
use crate::i_shape::flat::buffer::FlatContoursBuffer;
use crate::i_shape::int::shape::IntShapes;
use crate::vector::edge::{DataVectorEdge, VectorShape};
use crate::vector::shapes_by;
use alloc::sync::Arc;
use alloc::vec::Vec;

/// A view of an arrangement, which is made once and asked as often as wanted.
#[derive(Debug, Clone)]
pub struct OverlayGraph<'a, I: OverlayInt> {
    overlay: &'a Overlay<I>,
    graph: Arc<Graph>,
    edges: Vec<DataVectorEdge<I>>,
}

impl<'a, I: OverlayInt> OverlayGraph<'a, I> {
    /// A view of the arrangement of a builder, if any edge is left.
    pub(crate) fn of(overlay: &'a Overlay<I>, fill: FillRule) -> Result<Option<Self>, OverlayError> {
        let keeps_given = overlay.options.preserve_input_collinear;
        let graph = overlay.ask(&Arranging(fill, overlay.solver, keeps_given))?;
        let edges = edges_of_graph(&graph)?;
        let graph = Arc::new(graph);
        Ok((!edges.is_empty()).then_some(Self { overlay, graph, edges }))
    }

    fn options(&self) -> Options {
        self.overlay.options.for_engine(self.overlay.solver)
    }

    fn shapes_with(&self, rule: OverlayRule, options: &Options) -> Result<IntShapes<I>, OverlayError> {
        match &*self.graph {
            Graph::Narrow(it) => shapes_of(&it.overlay(rule, options)?),
            Graph::Wide(it) => shapes_of(&it.overlay(rule, options)?),
        }
    }

    /// The shapes of an overlay.
    ///
    /// # Errors
    /// As of [`Overlay::try_overlay`].
    pub fn try_extract_shapes(&self, rule: OverlayRule) -> Result<IntShapes<I>, OverlayError> {
        self.shapes_with(rule, &self.options())
    }

    /// The shapes of an overlay.
    ///
    /// # Panics
    /// Where [`Self::try_extract_shapes`] is refused.
    #[track_caller]
    pub fn extract_shapes(&self, rule: OverlayRule, _buffer: &mut BooleanExtractionBuffer<I>) -> IntShapes<I> {
        answered(self.try_extract_shapes(rule))
    }

    /// The shapes of an overlay, and which lie in which holes.
    ///
    /// # Errors
    /// As of [`Overlay::try_overlay`].
    pub fn try_extract_shape_hierarchy(&self, rule: OverlayRule) -> Result<FlatShapeHierarchy<I>, OverlayError> {
        let options = self.options();
        match &*self.graph {
            Graph::Narrow(it) => linked_of(&it.hierarchy(rule, &options)?),
            Graph::Wide(it) => linked_of(&it.hierarchy(rule, &options)?),
        }
    }

    /// The shapes of an overlay, and which lie in which holes.
    ///
    /// # Panics
    /// Where [`Self::try_extract_shape_hierarchy`] is refused.
    #[track_caller]
    pub fn extract_shape_hierarchy(
        &self,
        rule: OverlayRule,
        _buffer: &mut BooleanExtractionBuffer<I>,
    ) -> FlatShapeHierarchy<I> {
        answered(self.try_extract_shape_hierarchy(rule))
    }

    /// Writes the contours of an overlay into a buffer, as [`Overlay::try_overlay_into`] does.
    ///
    /// # Errors
    /// As of [`Overlay::try_overlay`]; the buffer stays then.
    pub fn try_extract_contours_into(
        &self,
        rule: OverlayRule,
        output: &mut FlatContoursBuffer<I>,
    ) -> Result<(), OverlayError> {
        let mut options = self.options();
        options.may_touch = true;
        match &*self.graph {
            Graph::Narrow(it) => flat_into(&it.overlay(rule, &options)?, output),
            Graph::Wide(it) => flat_into(&it.overlay(rule, &options)?, output),
        }
    }

    /// Writes the contours of an overlay into a buffer.
    ///
    /// # Panics
    /// Where [`Self::try_extract_contours_into`] is refused.
    #[track_caller]
    pub fn extract_contours_into(
        &self,
        rule: OverlayRule,
        _buffer: &mut BooleanExtractionBuffer<I>,
        output: &mut FlatContoursBuffer<I>,
    ) {
        answered(self.try_extract_contours_into(rule, output));
    }

    /// The edges of the arrangement, where the view has them.
    pub fn edges(&self) -> &[DataVectorEdge<I>] {
        &self.edges
    }

    /// The edges of the arrangement.
    pub fn extract_separate_vectors(&self) -> Vec<DataVectorEdge<I>> {
        self.edges.clone()
    }

    /// The edges of the arrangement with their data, of which those of a view have none.
    pub fn extract_vectors(&self) -> Vec<DataVectorEdge<I>> {
        self.edges.clone()
    }

    /// The edges of the arrangement, as [`Self::extract_vectors`] gives them.
    pub fn extract_vectors_with_store(&self, _store: &mut ()) -> Vec<DataVectorEdge<I>> {
        self.edges.clone()
    }

    /// The shapes of an overlay, as edges with their filled sides.
    ///
    /// # Errors
    /// As of [`Overlay::try_overlay`].
    pub fn try_extract_vector_shapes(&self, rule: OverlayRule) -> Result<Vec<VectorShape<I>>, OverlayError> {
        let mut options = self.options();
        let is_joined = !options.keeps_points;
        options.keeps_points = true;
        options.may_touch = true;
        shapes_by(&self.shapes_with(rule, &options)?, &self.edges, is_joined, &mut ())
    }

    /// The shapes of an overlay, as edges with their filled sides.
    ///
    /// # Panics
    /// Where [`Self::try_extract_vector_shapes`] is refused.
    #[track_caller]
    pub fn extract_vector_shapes(
        &self,
        rule: OverlayRule,
        _buffer: &mut BooleanExtractionBuffer<I>,
    ) -> Vec<VectorShape<I>> {
        answered(self.try_extract_vector_shapes(rule))
    }

    /// The shapes of an overlay, as [`Self::extract_vector_shapes`] gives them.
    ///
    /// # Panics
    /// Where [`Self::try_extract_vector_shapes`] is refused.
    #[track_caller]
    pub fn extract_vector_shapes_with_store(
        &self,
        rule: OverlayRule,
        buffer: &mut BooleanExtractionBuffer<I>,
        _store: &mut (),
    ) -> Vec<VectorShape<I>> {
        self.extract_vector_shapes(rule, buffer)
    }
}
