//! The builder of overlays of edges that carry data.

mod queries;

use crate::core::edge_data::OverlayEdgeData;
use crate::core::extract::BooleanExtractionBuffer;
use crate::core::integer::OverlayInt;
use crate::core::overlay::{IntOverlayOptions, ShapeType};
use crate::core::solver::Solver;
use crate::engine::lists::make_room;
use crate::error::{answered, OverlayError};
use crate::i_float::int::number::int::IntNumber;
use crate::i_float::int::point::IntPoint;
use ::core::fmt;
use alloc::vec::Vec;

/// An edge that is added, from a to b.
#[derive(Debug, Clone, Copy, PartialEq, Eq)]
pub struct InputEdge<I: IntNumber, D> {
    /// Where it begins.
    pub a: IntPoint<I>,
    /// Where it ends.
    pub b: IntPoint<I>,
    /// What it carries.
    pub data: D,
}

/// Edges of a subject and of a clip, each with data, to be asked. Queries leave what was added as it is.
///
/// ```
/// use polyover::core::edge_data::{EdgeDataMerge, OverlayEdgeData};
/// use polyover::core::edge_overlay::{EdgeOverlay, InputEdge};
/// use polyover::core::{fill_rule::FillRule, overlay::ShapeType, overlay_rule::OverlayRule};
/// use polyover::segm::boolean::ShapeCountBoolean;
///
/// /// The number of a road; of two roads on one another the smaller one stands for both.
/// #[derive(Debug, Clone, Copy, PartialEq)]
/// struct Road(u8);
///
/// impl OverlayEdgeData for Road {
///     type Store = ();
///
///     fn merge(merge: EdgeDataMerge<ShapeCountBoolean, Self>, _: &mut ()) -> Self {
///         Road(merge.lhs_data.0.min(merge.rhs_data.0))
///     }
/// }
///
/// let mut overlay = EdgeOverlay::new(3);
/// let corners = [[0, 0], [4, 0], [0, 4]];
/// for number in 0..3 {
///     let (a, b) = (corners[number].into(), corners[(number + 1) % 3].into());
///     let data = Road(number as u8);
///     overlay.add_edge(InputEdge { a, b, data }, ShapeType::Subject);
/// }
/// let shapes = overlay.build_vector_shapes(OverlayRule::Subject, FillRule::NonZero);
/// let steps = shapes[0][0].iter().map(|it| (<[i32; 2]>::from(it.a), it.data.0));
/// assert_eq!(steps.collect::<Vec<_>>(), [([0, 4], 2), ([0, 0], 0), ([4, 0], 1)]);
/// ```
pub struct EdgeOverlay<I: OverlayInt, D: OverlayEdgeData> {
    /// How edges are split.
    pub solver: Solver,
    /// How answers look. Of [`Self::build_vectors`] they play no part, and nowhere do `preserve_input_collinear` and
    /// `ogc`: ends of added edges are nodes of the arrangement, and a contour may visit a point twice.
    pub options: IntOverlayOptions<I::WideUInt>,
    /// Room for extractions; the library takes its own.
    pub boolean_buffer: Option<BooleanExtractionBuffer<I>>,
    store: D::Store,
    // both ends of each edge, the number of its side, and its data
    ends: Vec<IntPoint<I>>,
    sides: Vec<u8>,
    carried: Vec<D>,
}

impl<I: OverlayInt, D: OverlayEdgeData + fmt::Debug> fmt::Debug for EdgeOverlay<I, D> {
    fn fmt(&self, f: &mut fmt::Formatter<'_>) -> fmt::Result {
        f.debug_struct("EdgeOverlay")
            .field("solver", &self.solver)
            .field("options", &self.options)
            .field("ends", &self.ends)
            .field("carried", &self.carried)
            .finish_non_exhaustive()
    }
}

/// The number of a side.
fn number_of(shape_type: ShapeType) -> u8 {
    match shape_type {
        ShapeType::Subject => 0,
        ShapeType::Clip => 1,
    }
}

impl<I: OverlayInt, D: OverlayEdgeData> EdgeOverlay<I, D> {
    /// A builder with room for edges, whose answers keep points on one line.
    pub fn new(capacity: usize) -> Self {
        Self {
            solver: Solver::default(),
            options: IntOverlayOptions::keep_output_points(),
            boolean_buffer: None,
            store: D::Store::default(),
            ends: Vec::with_capacity(capacity.saturating_mul(2)),
            sides: Vec::with_capacity(capacity),
            carried: Vec::with_capacity(capacity),
        }
    }

    /// Adds an edge. One between equal points is none.
    ///
    /// # Errors
    /// `Memory`; nothing is added then.
    pub fn try_add_edge(&mut self, edge: InputEdge<I, D>, shape_type: ShapeType) -> Result<(), OverlayError> {
        if edge.a == edge.b {
            return Ok(());
        }
        make_room(&mut self.ends, 2)?;
        make_room(&mut self.sides, 1)?;
        make_room(&mut self.carried, 1)?;
        self.ends.extend([edge.a, edge.b]);
        self.sides.push(number_of(shape_type));
        self.carried.push(edge.data);
        Ok(())
    }

    /// Adds an edge. One between equal points is none.
    ///
    /// # Panics
    /// Where [`Self::try_add_edge`] is refused.
    #[track_caller]
    pub fn add_edge(&mut self, edge: InputEdge<I, D>, shape_type: ShapeType) {
        answered(self.try_add_edge(edge, shape_type));
    }

    /// Adds edges.
    ///
    /// # Panics
    /// Where [`Self::try_add_edge`] is refused.
    #[track_caller]
    pub fn add_edges<It: IntoIterator<Item = InputEdge<I, D>>>(&mut self, edges: It, shape_type: ShapeType) {
        for edge in edges {
            self.add_edge(edge, shape_type);
        }
    }

    /// Both ends of each edge that was added, the smaller one first.
    pub fn edges(&self) -> impl Iterator<Item = [IntPoint<I>; 2]> + '_ {
        self.ends.chunks_exact(2).map(|it| match *it {
            [a, b] => [a.min(b), a.max(b)],
            _ => Default::default(),
        })
    }

    /// The store of the data.
    pub fn data_store(&self) -> &D::Store {
        &self.store
    }

    /// The store of the data, to be changed.
    pub fn data_store_mut(&mut self) -> &mut D::Store {
        &mut self.store
    }

    /// The store of the data.
    pub fn into_data_store(self) -> D::Store {
        self.store
    }
}
