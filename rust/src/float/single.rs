//! Overlays of floats in one call.

use crate::core::fill_rule::FillRule;
use crate::core::integer::OverlayInt;
use crate::core::overlay::Overlay;
use crate::core::overlay_rule::OverlayRule;
use crate::error::{answered, OverlayError};
use crate::float::grid::Grid;
use crate::i_float::float::compatible::FloatPointCompatible;
use crate::i_shape::base::data::Shapes;
use crate::i_shape::source::resource::ShapeResource;

/// Overlays of floats in one call.
///
/// ```
/// use polyover::core::fill_rule::FillRule;
/// use polyover::core::overlay_rule::OverlayRule;
/// use polyover::float::single::SingleFloatOverlay;
///
/// let subj = [[0.0, 0.0], [4.0, 0.0], [4.0, 4.0], [0.0, 4.0]];
/// let clip = [[2.0, 2.0], [6.0, 2.0], [6.0, 6.0], [2.0, 6.0]];
/// let result = subj.overlay(&clip, OverlayRule::Intersect, FillRule::EvenOdd);
/// assert_eq!(result, [[[[2.0, 4.0], [2.0, 2.0], [4.0, 2.0], [4.0, 4.0]]]]);
/// ```
pub trait SingleFloatOverlay<R, P>
where
    R: ShapeResource<P> + ?Sized,
    P: FloatPointCompatible,
{
    /// The shapes on a grid.
    ///
    /// # Errors
    /// As of [`Overlay::try_overlay`]; `NotFinite`; `OutOfRange` where the grid does not have a coordinate.
    fn try_overlay_on<I: OverlayInt>(
        &self,
        source: &R,
        overlay_rule: OverlayRule,
        fill_rule: FillRule,
        grid: &Grid<I>,
    ) -> Result<Shapes<P>, OverlayError>;

    /// The shapes on the finest grid of a type of whole coordinates.
    ///
    /// # Errors
    /// As of [`Self::try_overlay_on`].
    fn try_overlay_as<I: OverlayInt>(
        &self,
        source: &R,
        overlay_rule: OverlayRule,
        fill_rule: FillRule,
    ) -> Result<Shapes<P>, OverlayError>;

    /// The shapes on the finest grid of 61 bits.
    ///
    /// # Errors
    /// As of [`Self::try_overlay_on`].
    fn try_overlay(
        &self,
        source: &R,
        overlay_rule: OverlayRule,
        fill_rule: FillRule,
    ) -> Result<Shapes<P>, OverlayError> {
        self.try_overlay_as::<i64>(source, overlay_rule, fill_rule)
    }

    /// The shapes on the finest grid of a type of whole coordinates.
    ///
    /// # Panics
    /// Where [`Self::try_overlay_as`] is refused.
    #[track_caller]
    fn overlay_as<I: OverlayInt>(&self, source: &R, overlay_rule: OverlayRule, fill_rule: FillRule) -> Shapes<P> {
        answered(self.try_overlay_as::<I>(source, overlay_rule, fill_rule))
    }

    /// The shapes on the finest grid of 61 bits.
    ///
    /// # Panics
    /// Where [`Self::try_overlay`] is refused.
    #[track_caller]
    fn overlay(&self, source: &R, overlay_rule: OverlayRule, fill_rule: FillRule) -> Shapes<P> {
        answered(self.try_overlay(source, overlay_rule, fill_rule))
    }
}

impl<R0, R1, P> SingleFloatOverlay<R1, P> for R0
where
    R0: ShapeResource<P> + ?Sized,
    R1: ShapeResource<P> + ?Sized,
    P: FloatPointCompatible,
{
    fn try_overlay_on<I: OverlayInt>(
        &self,
        source: &R1,
        overlay_rule: OverlayRule,
        fill_rule: FillRule,
        grid: &Grid<I>,
    ) -> Result<Shapes<P>, OverlayError> {
        let mut overlay = Overlay::<I>::new(0);
        overlay.subject = grid.paths(self)?;
        overlay.clip = grid.paths(source)?;
        grid.shapes(&overlay.try_overlay(overlay_rule, fill_rule)?)
    }

    fn try_overlay_as<I: OverlayInt>(
        &self,
        source: &R1,
        overlay_rule: OverlayRule,
        fill_rule: FillRule,
    ) -> Result<Shapes<P>, OverlayError> {
        let grid = Grid::<I>::finest(self, source)?;
        self.try_overlay_on(source, overlay_rule, fill_rule, &grid)
    }
}
