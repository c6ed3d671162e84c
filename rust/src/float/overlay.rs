//! The builder of overlays of floats.

use crate::core::fill_rule::FillRule;
use crate::core::integer::OverlayInt;
use crate::core::overlay::{ContourDirection, IntOverlayOptions, Overlay};
use crate::core::overlay_rule::OverlayRule;
use crate::core::solver::Solver;
use crate::error::{answered, OverlayError};
use crate::float::graph::FloatOverlayGraph;
use crate::float::grid::Grid;
use crate::float::scale::{fixed, fixed_grid, FixedScaleOverlayError};
use crate::i_float::float::compatible::FloatPointCompatible;
use crate::i_float::float::number::FloatNumber;
use crate::i_shape::base::data::Shapes;
use crate::i_shape::source::resource::ShapeResource;
use ::core::marker::PhantomData;
use alloc::vec::Vec;

/// How an answer looks.
#[derive(Debug, Clone, Copy, PartialEq)]
pub struct OverlayOptions<T: FloatNumber> {
    /// Whether points of given contours on one line with their neighbours are nodes of the arrangement.
    pub preserve_input_collinear: bool,
    /// Which way outlines run; holes run the other way.
    pub output_direction: ContourDirection,
    /// Whether points of the answer on one line with their neighbours are kept.
    pub preserve_output_collinear: bool,
    /// Contours of a smaller area are left out: it is taken to the nearest whole number of squared steps of the grid.
    pub min_output_area: T,
    /// Whether no contour may visit a point twice, as in valid polygons.
    pub ogc: bool,
}

impl<T: FloatNumber> Default for OverlayOptions<T> {
    fn default() -> Self {
        Self {
            preserve_input_collinear: false,
            output_direction: ContourDirection::CounterClockwise,
            preserve_output_collinear: false,
            min_output_area: T::default(),
            ogc: false,
        }
    }
}

impl<T: FloatNumber> OverlayOptions<T> {
    /// Shapes are valid polygons, as OGC defines them.
    pub fn ogc() -> Self {
        Self {
            ogc: true,
            ..Self::default()
        }
    }

    /// The same on a grid.
    pub(crate) fn on<I: OverlayInt>(&self, grid: &Grid<I>) -> Result<IntOverlayOptions<I::WideUInt>, OverlayError> {
        Ok(IntOverlayOptions {
            preserve_input_collinear: self.preserve_input_collinear,
            output_direction: self.output_direction,
            preserve_output_collinear: self.preserve_output_collinear,
            min_output_area: grid.squared_steps(self.min_output_area)?,
            ogc: self.ogc,
        })
    }
}

/// Contours of floats, to be asked. Queries leave what was added as it is.
///
/// ```
/// use polyover::core::{fill_rule::FillRule, overlay_rule::OverlayRule};
/// use polyover::float::overlay::FloatOverlay;
///
/// let subj = [[0.0, 0.0], [4.0, 0.0], [4.0, 4.0], [0.0, 4.0]];
/// let clip = [[2.0, 2.0], [6.0, 2.0], [6.0, 6.0], [2.0, 6.0]];
/// let mut overlay = FloatOverlay::with_subj_and_clip(&subj, &clip);
/// assert_eq!(overlay.overlay(OverlayRule::Difference, FillRule::EvenOdd)[0][0].len(), 6);
/// assert_eq!(overlay.overlay(OverlayRule::Union, FillRule::EvenOdd)[0][0].len(), 8);
/// ```
#[derive(Debug, Clone)]
pub struct FloatOverlay<P: FloatPointCompatible, I: OverlayInt = i64> {
    /// How edges are split.
    pub solver: Solver,
    /// How answers look.
    pub options: OverlayOptions<P::Scalar>,
    overlay: Overlay<I>,
    grid: Grid<I>,
    point: PhantomData<fn() -> P>,
}

impl<P: FloatPointCompatible> FloatOverlay<P> {
    /// A builder of these contours on the finest grid of 61 bits.
    ///
    /// # Panics
    /// Where [`Self::try_from_subj_and_clip`] is refused.
    #[track_caller]
    pub fn with_subj_and_clip<R0, R1>(subj: &R0, clip: &R1) -> Self
    where
        R0: ShapeResource<P> + ?Sized,
        R1: ShapeResource<P> + ?Sized,
    {
        Self::from_subj_and_clip(subj, clip)
    }

    /// The same, with options and a solver.
    ///
    /// # Panics
    /// Where [`Self::try_from_subj_and_clip`] is refused.
    #[track_caller]
    pub fn with_subj_and_clip_custom<R0, R1>(
        subj: &R0,
        clip: &R1,
        options: OverlayOptions<P::Scalar>,
        solver: Solver,
    ) -> Self
    where
        R0: ShapeResource<P> + ?Sized,
        R1: ShapeResource<P> + ?Sized,
    {
        Self::from_subj_and_clip_custom(subj, clip, options, solver)
    }

    /// A builder of these contours on a grid of a fixed scale.
    ///
    /// # Errors
    /// Where the scale or a coordinate is refused.
    pub fn with_subj_and_clip_fixed_scale<R0, R1>(
        subj: &R0,
        clip: &R1,
        scale: P::Scalar,
    ) -> Result<Self, FixedScaleOverlayError>
    where
        R0: ShapeResource<P> + ?Sized,
        R1: ShapeResource<P> + ?Sized,
    {
        let grid = fixed_grid(subj, clip, scale)?;
        Self::try_on(subj, clip, &grid).map_err(fixed)
    }

    /// A builder of a subject on the finest grid of 61 bits.
    ///
    /// # Panics
    /// Where [`Self::try_from_subj_and_clip`] is refused.
    #[track_caller]
    pub fn with_subj<R: ShapeResource<P> + ?Sized>(subj: &R) -> Self {
        let none: [Vec<P>; 0] = [];
        Self::from_subj_and_clip(subj, &none)
    }
}

impl<P: FloatPointCompatible, I: OverlayInt> FloatOverlay<P, I> {
    /// A builder of these contours on a grid.
    ///
    /// # Errors
    /// `Memory`; `NotFinite`; `OutOfRange` where a coordinate is out of the range of the grid.
    pub fn try_on<R0, R1>(subj: &R0, clip: &R1, grid: &Grid<I>) -> Result<Self, OverlayError>
    where
        R0: ShapeResource<P> + ?Sized,
        R1: ShapeResource<P> + ?Sized,
    {
        let mut it = Self {
            solver: Solver::default(),
            options: OverlayOptions::default(),
            overlay: Overlay::new(0),
            grid: *grid,
            point: PhantomData,
        };
        it.overlay.subject = grid.paths(subj)?;
        it.overlay.clip = grid.paths(clip)?;
        Ok(it)
    }

    /// A builder of these contours on the finest grid.
    ///
    /// # Errors
    /// `Memory`; `NotFinite`; `OutOfRange` where a coordinate is above
    /// [`FloatNumber::LIMIT`].
    pub fn try_from_subj_and_clip<R0, R1>(subj: &R0, clip: &R1) -> Result<Self, OverlayError>
    where
        R0: ShapeResource<P> + ?Sized,
        R1: ShapeResource<P> + ?Sized,
    {
        Self::try_on(subj, clip, &Grid::finest(subj, clip)?)
    }

    /// A builder of these contours on the finest grid.
    ///
    /// # Panics
    /// Where [`Self::try_from_subj_and_clip`] is refused.
    #[track_caller]
    pub fn from_subj_and_clip<R0, R1>(subj: &R0, clip: &R1) -> Self
    where
        R0: ShapeResource<P> + ?Sized,
        R1: ShapeResource<P> + ?Sized,
    {
        answered(Self::try_from_subj_and_clip(subj, clip))
    }

    /// The same, with options and a solver.
    ///
    /// # Panics
    /// Where [`Self::try_from_subj_and_clip`] is refused.
    #[track_caller]
    pub fn from_subj_and_clip_custom<R0, R1>(
        subj: &R0,
        clip: &R1,
        options: OverlayOptions<P::Scalar>,
        solver: Solver,
    ) -> Self
    where
        R0: ShapeResource<P> + ?Sized,
        R1: ShapeResource<P> + ?Sized,
    {
        let mut it = Self::from_subj_and_clip(subj, clip);
        it.options = options;
        it.solver = solver;
        it
    }

    /// Replaces the contours: on the finest grid of the new ones, or on the same grid where it has a fixed scale.
    ///
    /// # Errors
    /// As of [`Self::try_on`]; the builder stays then.
    pub fn try_reinit_with_subj_and_clip<R0, R1>(&mut self, subj: &R0, clip: &R1) -> Result<(), OverlayError>
    where
        R0: ShapeResource<P> + ?Sized,
        R1: ShapeResource<P> + ?Sized,
    {
        let grid = if self.grid.is_exact() {
            Grid::finest(subj, clip)?
        } else {
            self.grid
        };
        let (subject, clip) = (grid.paths(subj)?, grid.paths(clip)?);
        self.overlay.subject = subject;
        self.overlay.clip = clip;
        self.grid = grid;
        Ok(())
    }

    /// Replaces the contours, as [`Self::try_reinit_with_subj_and_clip`] does.
    ///
    /// # Panics
    /// Where [`Self::try_reinit_with_subj_and_clip`] is refused.
    #[track_caller]
    pub fn reinit_with_subj_and_clip<R0, R1>(&mut self, subj: &R0, clip: &R1)
    where
        R0: ShapeResource<P> + ?Sized,
        R1: ShapeResource<P> + ?Sized,
    {
        answered(self.try_reinit_with_subj_and_clip(subj, clip));
    }

    /// The shapes round the region of the rules.
    ///
    /// # Errors
    /// As of [`Overlay::try_overlay`]; `NotFinite`, of the smallest area.
    pub fn try_overlay(&self, overlay_rule: OverlayRule, fill_rule: FillRule) -> Result<Shapes<P>, OverlayError> {
        let options = self.options.on(&self.grid)?;
        let shapes = self
            .overlay
            .try_overlay_with(overlay_rule, fill_rule, &options, self.solver)?;
        self.grid.shapes(&shapes)
    }

    /// The shapes round the region of the rules.
    ///
    /// # Panics
    /// Where [`Self::try_overlay`] is refused.
    #[track_caller]
    pub fn overlay(&mut self, overlay_rule: OverlayRule, fill_rule: FillRule) -> Shapes<P> {
        answered(self.try_overlay(overlay_rule, fill_rule))
    }

    /// A view of the arrangement; none where no edge is left.
    ///
    /// # Errors
    /// As of [`Overlay::try_build_graph_view`]; `NotFinite`, of the smallest area.
    pub fn try_build_graph_view(
        &mut self,
        fill_rule: FillRule,
    ) -> Result<Option<FloatOverlayGraph<'_, P, I>>, OverlayError> {
        self.overlay.options = self.options.on(&self.grid)?;
        self.overlay.solver = self.solver;
        let view = self.overlay.try_build_graph_view(fill_rule)?;
        Ok(view.map(|graph| FloatOverlayGraph {
            graph,
            grid: self.grid,
            point: PhantomData,
        }))
    }

    /// A view of the arrangement; none where no edge is left.
    ///
    /// # Panics
    /// Where [`Self::try_build_graph_view`] is refused.
    #[track_caller]
    pub fn build_graph_view(&mut self, fill_rule: FillRule) -> Option<FloatOverlayGraph<'_, P, I>> {
        answered(self.try_build_graph_view(fill_rule))
    }

    /// The grid of the contours.
    pub fn grid(&self) -> &Grid<I> {
        &self.grid
    }
}
