//! Overlays in one call.

use crate::core::fill_rule::FillRule;
use crate::core::integer::OverlayInt;
use crate::core::overlay::{Overlay, ShapeType};
use crate::core::overlay_rule::OverlayRule;
use crate::error::{answered, OverlayError};
use crate::i_shape::int::shape::IntShapes;
use crate::i_shape::source::int::resource::IntShapeResource;

/// Overlays in one call, of any two resources.
///
/// ```
/// use polyover::core::{fill_rule::FillRule, overlay_rule::OverlayRule, single::SingleIntOverlay};
/// use polyover::i_float::int::point::IntPoint;
///
/// let square = [[0, 0], [10, 0], [10, 10], [0, 10]].map(IntPoint::from);
/// let result = square.overlay(&square[..], OverlayRule::Intersect, FillRule::NonZero);
/// assert_eq!(result.len(), 1);
/// ```
pub trait SingleIntOverlay<R, I>
where
    R: IntShapeResource<I> + ?Sized,
    I: OverlayInt,
{
    /// The shapes round the region of the rules.
    ///
    /// # Errors
    /// As of [`Overlay::try_overlay`].
    fn try_overlay(
        &self,
        source: &R,
        overlay_rule: OverlayRule,
        fill_rule: FillRule,
    ) -> Result<IntShapes<I>, OverlayError>;

    /// The shapes round the region of the rules.
    ///
    /// # Panics
    /// Where [`Self::try_overlay`] is refused.
    #[track_caller]
    fn overlay(&self, source: &R, overlay_rule: OverlayRule, fill_rule: FillRule) -> IntShapes<I> {
        answered(self.try_overlay(source, overlay_rule, fill_rule))
    }
}

impl<R0, R1, I> SingleIntOverlay<R1, I> for R0
where
    R0: IntShapeResource<I> + ?Sized,
    R1: IntShapeResource<I> + ?Sized,
    I: OverlayInt,
{
    fn try_overlay(
        &self,
        source: &R1,
        overlay_rule: OverlayRule,
        fill_rule: FillRule,
    ) -> Result<IntShapes<I>, OverlayError> {
        let mut overlay = Overlay::new(0);
        overlay.try_add_source(self, ShapeType::Subject)?;
        overlay.try_add_source(source, ShapeType::Clip)?;
        overlay.try_overlay(overlay_rule, fill_rule)
    }
}
