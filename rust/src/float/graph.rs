//! A view of an arrangement of floats.

use crate::core::extract::BooleanExtractionBuffer;
use crate::core::graph::OverlayGraph;
use crate::core::integer::OverlayInt;
use crate::core::overlay_rule::OverlayRule;
use crate::error::{answered, OverlayError};
use crate::float::grid::Grid;
use crate::i_float::float::compatible::FloatPointCompatible;
use crate::i_shape::base::data::Shapes;
use ::core::marker::PhantomData;

/// A view of the arrangement of a [`FloatOverlay`](crate::float::overlay::FloatOverlay), of which several rules may be
/// asked.
///
/// ```
/// use polyover::core::extract::BooleanExtractionBuffer;
/// use polyover::core::{fill_rule::FillRule, overlay_rule::OverlayRule};
/// use polyover::float::overlay::FloatOverlay;
///
/// let subj = [[0.0, 0.0], [4.0, 0.0], [4.0, 4.0], [0.0, 4.0]];
/// let clip = [[2.0, 2.0], [6.0, 2.0], [6.0, 6.0], [2.0, 6.0]];
/// let mut overlay = FloatOverlay::with_subj_and_clip(&subj, &clip);
/// let graph = overlay.build_graph_view(FillRule::NonZero).unwrap();
/// let mut buffer = BooleanExtractionBuffer::default();
/// assert_eq!(graph.extract_shapes(OverlayRule::Union, &mut buffer)[0][0].len(), 8);
/// assert_eq!(graph.extract_shapes(OverlayRule::Intersect, &mut buffer)[0][0].len(), 4);
/// ```
#[derive(Debug, Clone)]
pub struct FloatOverlayGraph<'a, P: FloatPointCompatible, I: OverlayInt = i64> {
    pub(super) graph: OverlayGraph<'a, I>,
    pub(super) grid: Grid<I>,
    pub(super) point: PhantomData<fn() -> P>,
}

impl<P: FloatPointCompatible, I: OverlayInt> FloatOverlayGraph<'_, P, I> {
    /// The shapes of an overlay.
    ///
    /// # Errors
    /// As of [`OverlayGraph::try_extract_shapes`].
    pub fn try_extract_shapes(&self, rule: OverlayRule) -> Result<Shapes<P>, OverlayError> {
        self.grid.shapes(&self.graph.try_extract_shapes(rule)?)
    }

    /// The shapes of an overlay.
    ///
    /// # Panics
    /// Where [`Self::try_extract_shapes`] is refused.
    #[track_caller]
    pub fn extract_shapes(&self, rule: OverlayRule, _buffer: &mut BooleanExtractionBuffer<I>) -> Shapes<P> {
        answered(self.try_extract_shapes(rule))
    }
}
