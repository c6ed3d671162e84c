//! What a builder of overlays is asked.

use super::{IntOverlayOptions, Overlay};
use crate::core::answer::OverlayAnswer;
use crate::core::fill_rule::FillRule;
use crate::core::graph::OverlayGraph;
use crate::core::hierarchy::{ChildLink, FlatShapeHierarchy};
use crate::core::integer::OverlayInt;
use crate::core::overlay_rule::OverlayRule;
use crate::core::solver::Solver;
use crate::engine::lists::{edges_in, listed, make_room_instead, points_of, ranges, shapes_of, vectors_of};
use crate::engine::options::Options;
use crate::engine::width::Query;
use crate::error::{answered, OverlayError};
use crate::ffi::{sys, Engine, Given, Graph, Held};
use crate::i_shape::flat::buffer::{FlatContoursBuffer, FlatShapesBuffer};
use crate::i_shape::int::shape::IntShapes;
use crate::vector::edge::{DataVectorEdge, VectorShape};
use ::core::cell::RefCell;
use ::core::marker::PhantomData;
use alloc::vec::Vec;

/// What an overlay is asked for.
pub(crate) struct Asked {
    pub(crate) rule: OverlayRule,
    pub(crate) fill: FillRule,
    pub(crate) options: Options,
}

/// Shapes in nested lists.
pub(crate) struct Nested<I>(pub(crate) Asked, pub(crate) PhantomData<I>);

impl<I: OverlayInt> Query for Nested<I> {
    type Answer = IntShapes<I>;

    fn ask<E: Engine>(&self, first: Given<'_, E::C>, second: Given<'_, E::C>) -> Result<IntShapes<I>, OverlayError> {
        shapes_of(&E::overlay(self.0.rule, self.0.fill, &self.0.options, first, second)?)
    }
}

/// Shapes as edges with their filled sides.
struct Vectors<I>(Asked, PhantomData<I>);

impl<I: OverlayInt> Query for Vectors<I> {
    type Answer = Vec<VectorShape<I>>;

    fn ask<E: Engine>(&self, first: Given<'_, E::C>, second: Given<'_, E::C>) -> Result<Self::Answer, OverlayError> {
        vectors_of(&E::vectors(self.0.rule, self.0.fill, &self.0.options, first, second)?)
    }
}

/// Shapes in flat lists, and their links.
struct Linked<I>(Asked, PhantomData<I>);

impl<I: OverlayInt> Query for Linked<I> {
    type Answer = FlatShapeHierarchy<I>;

    fn ask<E: Engine>(&self, first: Given<'_, E::C>, second: Given<'_, E::C>) -> Result<Self::Answer, OverlayError> {
        linked_of(&E::hierarchy(self.0.rule, self.0.fill, &self.0.options, first, second)?)
    }
}

/// The shapes of an answer in flat lists, and their links.
pub(crate) fn linked_of<I: OverlayInt, E: Engine>(held: &Held<E>) -> Result<FlatShapeHierarchy<I>, OverlayError> {
    let shapes = FlatShapesBuffer {
        points: listed(held.coordinates().len() / 2, points_of(held.coordinates()))?,
        contour_ranges: listed(held.contour_ends().len(), ranges(held.contour_ends()))?,
        shape_ranges: listed(held.shape_ends().len(), ranges(held.shape_ends()))?,
    };
    let link = |it: &sys::Link| ChildLink {
        parent_shape_index: it.parent_shape,
        parent_contour_index: it.parent_contour,
        child_shape_index: it.child_shape,
    };
    let links = listed(held.links().len(), held.links().iter().map(link))?;
    Ok(FlatShapeHierarchy { shapes, links })
}

/// Contours in a flat list, which takes them once all is there.
struct Flat<'a, I: OverlayInt>(Asked, RefCell<&'a mut FlatContoursBuffer<I>>);

impl<I: OverlayInt> Query for Flat<'_, I> {
    type Answer = ();

    fn ask<E: Engine>(&self, first: Given<'_, E::C>, second: Given<'_, E::C>) -> Result<(), OverlayError> {
        let held = E::overlay(self.0.rule, self.0.fill, &self.0.options, first, second)?;
        let mut output = self.1.try_borrow_mut().map_err(|_| OverlayError::Memory)?;
        flat_into(&held, &mut output)
    }
}

/// Puts the contours of an answer in the place of those of a flat list, which stay where there is no room.
pub(crate) fn flat_into<I: OverlayInt, E: Engine>(
    held: &Held<E>,
    output: &mut FlatContoursBuffer<I>,
) -> Result<(), OverlayError> {
    make_room_instead(&mut output.points, held.coordinates().len() / 2)?;
    make_room_instead(&mut output.ranges, held.contour_ends().len())?;
    output.points.clear();
    output.ranges.clear();
    output.points.extend(points_of(held.coordinates()));
    output.ranges.extend(ranges(held.contour_ends()));
    Ok(())
}

/// Edges with their filled sides.
struct Listed<I>(FillRule, Solver, PhantomData<I>);

impl<I: OverlayInt> Query for Listed<I> {
    type Answer = Vec<DataVectorEdge<I>>;

    fn ask<E: Engine>(&self, first: Given<'_, E::C>, second: Given<'_, E::C>) -> Result<Self::Answer, OverlayError> {
        edges_of(&E::edges(self.0, self.1, first, second)?)
    }
}

/// The edges of an answer.
pub(crate) fn edges_of<I: OverlayInt, E: Engine>(held: &Held<E>) -> Result<Vec<DataVectorEdge<I>>, OverlayError> {
    edges_in(held.coordinates(), held.fills())
}

/// The edges of a graph.
pub(crate) fn edges_of_graph<I: OverlayInt>(graph: &Graph) -> Result<Vec<DataVectorEdge<I>>, OverlayError> {
    match graph {
        Graph::Narrow(it) => edges_of(&it.edges()?),
        Graph::Wide(it) => edges_of(&it.edges()?),
    }
}

/// A graph of the arrangement, with given points on one line or without these.
pub(crate) struct Arranging(pub(crate) FillRule, pub(crate) Solver, pub(crate) bool);

impl Query for Arranging {
    type Answer = Graph;

    fn ask<E: Engine>(&self, first: Given<'_, E::C>, second: Given<'_, E::C>) -> Result<Graph, OverlayError> {
        E::arrange(self.0, self.1, self.2, first, second)
    }
}

impl<I: OverlayInt> Overlay<I> {
    pub(crate) fn ask<Q: Query>(&self, query: &Q) -> Result<Q::Answer, OverlayError> {
        I::ask(query, self.subject.as_given(), self.clip.as_given())
    }

    pub(crate) fn asked(&self, rule: OverlayRule, fill: FillRule) -> Asked {
        let options = self.options.for_engine(self.solver);
        Asked { rule, fill, options }
    }

    /// The shapes round the region of the rules.
    ///
    /// # Errors
    /// `Memory`; `OutOfRange`, of `i64` alone; `TooManyEdges`; `NotSettled`, of `Solver::ROUNDS` alone.
    pub fn try_overlay(&self, overlay_rule: OverlayRule, fill_rule: FillRule) -> Result<IntShapes<I>, OverlayError> {
        self.ask(&Nested(self.asked(overlay_rule, fill_rule), PhantomData))
    }

    /// The same with other options, and another solver.
    pub(crate) fn try_overlay_with(
        &self,
        rule: OverlayRule,
        fill: FillRule,
        options: &IntOverlayOptions<I::WideUInt>,
        solver: Solver,
    ) -> Result<IntShapes<I>, OverlayError> {
        let options = options.for_engine(solver);
        self.ask(&Nested(Asked { rule, fill, options }, PhantomData))
    }

    /// The shapes round the region of the rules.
    ///
    /// # Panics
    /// Where [`Self::try_overlay`] is refused.
    #[track_caller]
    pub fn overlay(&mut self, overlay_rule: OverlayRule, fill_rule: FillRule) -> IntShapes<I> {
        answered(self.try_overlay(overlay_rule, fill_rule))
    }

    /// The shapes of [`Self::try_overlay`] where the library has them, to be iterated over without a copy.
    ///
    /// # Errors
    /// As of [`Self::try_overlay`].
    pub fn try_answer(&self, overlay_rule: OverlayRule, fill_rule: FillRule) -> Result<OverlayAnswer<I>, OverlayError> {
        let asked = self.asked(overlay_rule, fill_rule);
        OverlayAnswer::of(&asked, self)
    }

    /// The shapes of an overlay, and which lie in which holes.
    ///
    /// # Errors
    /// As of [`Self::try_overlay`].
    pub fn try_overlay_hierarchy(
        &self,
        overlay_rule: OverlayRule,
        fill_rule: FillRule,
    ) -> Result<FlatShapeHierarchy<I>, OverlayError> {
        self.ask(&Linked(self.asked(overlay_rule, fill_rule), PhantomData))
    }

    /// The shapes of an overlay, and which lie in which holes.
    ///
    /// # Panics
    /// Where [`Self::try_overlay_hierarchy`] is refused.
    #[track_caller]
    pub fn overlay_hierarchy(&mut self, overlay_rule: OverlayRule, fill_rule: FillRule) -> FlatShapeHierarchy<I> {
        answered(self.try_overlay_hierarchy(overlay_rule, fill_rule))
    }

    /// Writes the contours of an overlay into a buffer. As in `i_overlay`, the option `ogc` plays no part: a contour
    /// may visit a point twice.
    ///
    /// # Errors
    /// As of [`Self::try_overlay`]; the buffer stays then.
    pub fn try_overlay_into(
        &self,
        overlay_rule: OverlayRule,
        fill_rule: FillRule,
        output: &mut FlatContoursBuffer<I>,
    ) -> Result<(), OverlayError> {
        let mut asked = self.asked(overlay_rule, fill_rule);
        asked.options.may_touch = true;
        self.ask(&Flat(asked, RefCell::new(output)))
    }

    /// Writes the contours of an overlay into a buffer, as [`Self::try_overlay_into`] does.
    ///
    /// # Panics
    /// Where [`Self::try_overlay_into`] is refused.
    #[track_caller]
    pub fn overlay_into(&mut self, overlay_rule: OverlayRule, fill_rule: FillRule, output: &mut FlatContoursBuffer<I>) {
        answered(self.try_overlay_into(overlay_rule, fill_rule, output));
    }

    /// The edges of the arrangement, with their filled sides.
    ///
    /// # Errors
    /// As of [`Self::try_overlay`].
    pub fn try_build_separate_vectors(&self, fill_rule: FillRule) -> Result<Vec<DataVectorEdge<I>>, OverlayError> {
        if self.options.preserve_input_collinear {
            let graph = self.ask(&Arranging(fill_rule, self.solver, true))?;
            return edges_of_graph(&graph);
        }
        self.ask(&Listed(fill_rule, self.solver, PhantomData))
    }

    /// The edges of the arrangement, with their filled sides.
    ///
    /// # Panics
    /// Where [`Self::try_build_separate_vectors`] is refused.
    #[track_caller]
    pub fn build_separate_vectors(&mut self, fill_rule: FillRule) -> Vec<DataVectorEdge<I>> {
        answered(self.try_build_separate_vectors(fill_rule))
    }

    /// The shapes of an overlay, as edges with their filled sides. As in `i_overlay`, the option `ogc` plays no part: a
    /// contour may visit a point twice.
    ///
    /// # Errors
    /// As of [`Self::try_build_separate_vectors`].
    pub fn try_build_shape_vectors(
        &self,
        fill_rule: FillRule,
        overlay_rule: OverlayRule,
    ) -> Result<Vec<VectorShape<I>>, OverlayError> {
        self.ask(&Vectors(self.asked(overlay_rule, fill_rule), PhantomData))
    }

    /// The shapes of an overlay, as edges with their filled sides, as of [`Self::try_build_shape_vectors`].
    ///
    /// # Panics
    /// Where [`Self::try_build_shape_vectors`] is refused.
    #[track_caller]
    pub fn build_shape_vectors(&mut self, fill_rule: FillRule, overlay_rule: OverlayRule) -> Vec<VectorShape<I>> {
        answered(self.try_build_shape_vectors(fill_rule, overlay_rule))
    }

    /// A view of the arrangement; none where no edge is left.
    ///
    /// # Errors
    /// As of [`Self::try_build_separate_vectors`].
    pub fn try_build_graph_view(&self, fill_rule: FillRule) -> Result<Option<OverlayGraph<'_, I>>, OverlayError> {
        OverlayGraph::of(self, fill_rule)
    }

    /// A view of the arrangement; none where no edge is left.
    ///
    /// # Panics
    /// Where [`Self::try_build_graph_view`] is refused.
    #[track_caller]
    pub fn build_graph_view(&mut self, fill_rule: FillRule) -> Option<OverlayGraph<'_, I>> {
        answered(self.try_build_graph_view(fill_rule))
    }
}
