//! Slices of floats.

use crate::core::fill_rule::FillRule;
use crate::core::integer::OverlayInt;
use crate::core::solver::Solver;
use crate::error::{answered, OverlayError};
use crate::float::grid::Grid;
use crate::i_float::float::compatible::FloatPointCompatible;
use crate::i_shape::base::data::Shapes;
use crate::i_shape::source::resource::ShapeResource;
use crate::string::overlay::StringOverlay;

/// Slices in one call. The paths of the resource are open.
///
/// ```
/// use polyover::core::fill_rule::FillRule;
/// use polyover::float::slice::FloatSlice;
///
/// let square = [[0.0, 0.0], [4.0, 0.0], [4.0, 4.0], [0.0, 4.0]];
/// assert_eq!(square.slice_by(&[[-1.0, 1.5], [5.0, 1.5]], FillRule::NonZero).len(), 2);
/// ```
pub trait FloatSlice<R, P>
where
    R: ShapeResource<P> + ?Sized,
    P: FloatPointCompatible,
{
    /// The shapes into which the paths of a resource cut this one, on a grid.
    ///
    /// # Errors
    /// As of [`StringOverlay::try_slice`]; `NotFinite`; `OutOfRange` where the grid does not have a coordinate.
    fn try_slice_by_on<I: OverlayInt>(
        &self,
        resource: &R,
        fill_rule: FillRule,
        grid: &Grid<I>,
    ) -> Result<Shapes<P>, OverlayError>;

    /// The shapes into which the paths of a resource cut this one, on the finest grid of 61 bits.
    ///
    /// # Errors
    /// As of [`Self::try_slice_by_on`].
    fn try_slice_by(&self, resource: &R, fill_rule: FillRule) -> Result<Shapes<P>, OverlayError>;

    /// The shapes into which the paths of a resource cut this one, on the finest grid of 61 bits.
    ///
    /// # Panics
    /// Where [`Self::try_slice_by`] is refused.
    #[track_caller]
    fn slice_by(&self, resource: &R, fill_rule: FillRule) -> Shapes<P> {
        answered(self.try_slice_by(resource, fill_rule))
    }
}

impl<R0, R1, P> FloatSlice<R1, P> for R0
where
    R0: ShapeResource<P> + ?Sized,
    R1: ShapeResource<P> + ?Sized,
    P: FloatPointCompatible,
{
    fn try_slice_by_on<I: OverlayInt>(
        &self,
        resource: &R1,
        fill_rule: FillRule,
        grid: &Grid<I>,
    ) -> Result<Shapes<P>, OverlayError> {
        let mut overlay = StringOverlay::<I>::new(0);
        overlay.shape = grid.paths(self)?;
        overlay.strings = grid.paths(resource)?;
        grid.shapes(&overlay.try_slice(fill_rule, Solver::default())?)
    }

    fn try_slice_by(&self, resource: &R1, fill_rule: FillRule) -> Result<Shapes<P>, OverlayError> {
        self.try_slice_by_on(resource, fill_rule, &Grid::<i64>::finest(self, resource)?)
    }
}
