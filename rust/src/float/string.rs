//! Strings of floats over a shape.

use crate::core::fill_rule::FillRule;
use crate::core::integer::OverlayInt;
use crate::core::solver::Solver;
use crate::error::{answered, OverlayError};
use crate::float::grid::Grid;
use crate::i_float::float::compatible::FloatPointCompatible;
use crate::i_shape::base::data::{Paths, Shapes};
use crate::i_shape::source::resource::ShapeResource;
use crate::string::clip::ClipRule;
use crate::string::overlay::StringOverlay;
use ::core::marker::PhantomData;

/// Contours of a shape, and strings over it, which are open paths, of floats. Queries leave them as they are.
///
/// ```
/// use polyover::core::{fill_rule::FillRule, solver::Solver};
/// use polyover::float::string::FloatStringOverlay;
/// use polyover::string::clip::ClipRule;
///
/// let square = [[0.0, 0.0], [4.0, 0.0], [4.0, 4.0], [0.0, 4.0]];
/// let overlay = FloatStringOverlay::with_shape_and_string(&square, &[[-1.0, 1.5], [5.0, 1.5]]);
/// assert_eq!(overlay.slice(FillRule::NonZero, Solver::default()).len(), 2);
/// let inside = ClipRule { invert: false, boundary_included: false };
/// let parts = overlay.clip_string_lines(FillRule::NonZero, inside, Solver::default());
/// assert_eq!(parts, [[[0.0, 1.5], [4.0, 1.5]]]);
/// ```
#[derive(Debug, Clone)]
pub struct FloatStringOverlay<P: FloatPointCompatible, I: OverlayInt = i64> {
    overlay: StringOverlay<I>,
    grid: Grid<I>,
    point: PhantomData<fn() -> P>,
}

impl<P: FloatPointCompatible> FloatStringOverlay<P> {
    /// A builder of a shape and of strings on the finest grid of 61 bits.
    ///
    /// # Panics
    /// Where [`Self::try_on`] is refused.
    #[track_caller]
    pub fn with_shape_and_string<R0, R1>(shape: &R0, string: &R1) -> Self
    where
        R0: ShapeResource<P> + ?Sized,
        R1: ShapeResource<P> + ?Sized,
    {
        answered(Grid::finest(shape, string).and_then(|grid| Self::try_on(shape, string, &grid)))
    }
}

impl<P: FloatPointCompatible, I: OverlayInt> FloatStringOverlay<P, I> {
    /// A builder of a shape and of strings on a grid.
    ///
    /// # Errors
    /// `Memory`; `NotFinite`; `OutOfRange` where a coordinate is out of the range of the grid.
    pub fn try_on<R0, R1>(shape: &R0, string: &R1, grid: &Grid<I>) -> Result<Self, OverlayError>
    where
        R0: ShapeResource<P> + ?Sized,
        R1: ShapeResource<P> + ?Sized,
    {
        let mut overlay = StringOverlay::new(0);
        overlay.shape = grid.paths(shape)?;
        overlay.strings = grid.paths(string)?;
        Ok(Self {
            overlay,
            grid: *grid,
            point: PhantomData,
        })
    }

    /// The shapes into which the strings cut the shape.
    ///
    /// # Errors
    /// As of [`StringOverlay::try_slice`].
    pub fn try_slice(&self, fill_rule: FillRule, solver: Solver) -> Result<Shapes<P>, OverlayError> {
        self.grid.shapes(&self.overlay.try_slice(fill_rule, solver)?)
    }

    /// The shapes into which the strings cut the shape.
    ///
    /// # Panics
    /// Where [`Self::try_slice`] is refused.
    #[track_caller]
    pub fn slice(&self, fill_rule: FillRule, solver: Solver) -> Shapes<P> {
        answered(self.try_slice(fill_rule, solver))
    }

    /// The parts of the strings that the rules keep.
    ///
    /// # Errors
    /// As of [`StringOverlay::try_clip`].
    pub fn try_clip(&self, fill_rule: FillRule, clip_rule: ClipRule, solver: Solver) -> Result<Paths<P>, OverlayError> {
        self.grid
            .all_paths(&self.overlay.try_clip(fill_rule, clip_rule, solver)?)
    }

    /// The parts of the strings that the rules keep.
    ///
    /// # Panics
    /// Where [`Self::try_clip`] is refused.
    #[track_caller]
    pub fn clip_string_lines(&self, fill_rule: FillRule, clip_rule: ClipRule, solver: Solver) -> Paths<P> {
        answered(self.try_clip(fill_rule, clip_rule, solver))
    }

    /// The grid of the shape and the strings.
    pub fn grid(&self) -> &Grid<I> {
        &self.grid
    }
}
