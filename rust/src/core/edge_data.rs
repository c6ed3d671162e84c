//! Data that edges carry.

use crate::segm::boolean::ShapeCountBoolean;

/// The counts and the data of two equal edges that are merged.
#[derive(Debug, Clone, Copy, PartialEq, Eq)]
pub struct EdgeDataMerge<C, D> {
    /// The counts of the left edge.
    pub lhs_count: C,
    /// The counts of the right edge.
    pub rhs_count: C,
    /// The data of the left edge.
    pub lhs_data: D,
    /// The data of the right edge.
    pub rhs_data: D,
}

/// Data that an edge carries through an overlay, as the name of a road.
///
/// An edge of an arrangement runs from its smaller to its larger end, and comes from added ones. Of each of these that
/// runs the other way the data is `reversed`, of each that was cut it is `split` then, once for each piece. What they
/// give is merged one after another; in which order is left open.
pub trait OverlayEdgeData<C = ShapeCountBoolean>: Copy + PartialEq {
    /// What the three functions need beside the data, as a table for new data.
    type Store: Default;

    /// The data of an edge to which two equal ones are merged.
    fn merge(merge: EdgeDataMerge<C, Self>, store: &mut Self::Store) -> Self;

    /// The data of a piece of the edge.
    #[must_use]
    fn split(self, _store: &mut Self::Store) -> Self {
        self
    }

    /// The data of the edge the other way.
    #[must_use]
    fn reversed(self, _store: &mut Self::Store) -> Self {
        self
    }
}

/// No data.
impl<C> OverlayEdgeData<C> for () {
    type Store = ();

    fn merge(_merge: EdgeDataMerge<C, Self>, _store: &mut ()) {}
}
