//! Simplifying floats.

use crate::core::fill_rule::FillRule;
use crate::core::integer::OverlayInt;
use crate::core::overlay::Overlay;
use crate::core::overlay_rule::OverlayRule;
use crate::core::solver::Solver;
use crate::error::{answered, OverlayError};
use crate::float::grid::Grid;
use crate::float::overlay::OverlayOptions;
use crate::i_float::float::compatible::FloatPointCompatible;
use crate::i_shape::base::data::Shapes;
use crate::i_shape::source::resource::ShapeResource;

/// Simplifying in one call.
///
/// ```
/// use polyover::core::fill_rule::FillRule;
/// use polyover::float::simplify::SimplifyShape;
///
/// let squares = [
///     vec![[0.0, 0.0], [0.0, 2.0], [2.0, 2.0], [2.0, 0.0]],
///     vec![[2.0, 0.0], [2.0, 2.0], [4.0, 2.0], [4.0, 0.0]],
/// ];
/// assert_eq!(squares.simplify_shape(FillRule::EvenOdd), [[[[0.0, 2.0], [0.0, 0.0], [4.0, 0.0], [4.0, 2.0]]]]);
/// ```
pub trait SimplifyShape<P: FloatPointCompatible> {
    /// The shapes round the points that the contours fill, on a grid, with options and a solver.
    ///
    /// # Errors
    /// As of [`Overlay::try_overlay`]; `NotFinite`; `OutOfRange` where the grid does not have a coordinate.
    fn try_simplify_shape_on<I: OverlayInt>(
        &self,
        fill_rule: FillRule,
        options: &OverlayOptions<P::Scalar>,
        solver: Solver,
        grid: &Grid<I>,
    ) -> Result<Shapes<P>, OverlayError>;

    /// The shapes round the points that the contours fill, on the finest grid of 61 bits.
    ///
    /// # Errors
    /// As of [`Self::try_simplify_shape_on`].
    fn try_simplify_shape(&self, fill_rule: FillRule) -> Result<Shapes<P>, OverlayError>;

    /// The shapes round the points that the contours fill, on the finest grid of 61 bits.
    ///
    /// # Panics
    /// Where [`Self::try_simplify_shape`] is refused.
    #[track_caller]
    fn simplify_shape(&self, fill_rule: FillRule) -> Shapes<P> {
        answered(self.try_simplify_shape(fill_rule))
    }
}

impl<P: FloatPointCompatible, R: ShapeResource<P> + ?Sized> SimplifyShape<P> for R {
    fn try_simplify_shape_on<I: OverlayInt>(
        &self,
        fill_rule: FillRule,
        options: &OverlayOptions<P::Scalar>,
        solver: Solver,
        grid: &Grid<I>,
    ) -> Result<Shapes<P>, OverlayError> {
        let mut overlay = Overlay::<I>::new_custom(0, options.on(grid)?, solver);
        overlay.subject = grid.paths(self)?;
        grid.shapes(&overlay.try_overlay(OverlayRule::Subject, fill_rule)?)
    }

    fn try_simplify_shape(&self, fill_rule: FillRule) -> Result<Shapes<P>, OverlayError> {
        let grid = Grid::<i64>::finest(self, self)?;
        self.try_simplify_shape_on(fill_rule, &OverlayOptions::default(), Solver::default(), &grid)
    }
}
