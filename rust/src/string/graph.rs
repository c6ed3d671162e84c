//! A view of strings over a shape.

use crate::core::fill_rule::FillRule;
use crate::core::integer::OverlayInt;
use crate::core::overlay::IntOverlayOptions;
use crate::core::solver::Solver;
use crate::error::{answered, OverlayError};
use crate::i_shape::int::shape::IntShapes;
use crate::string::overlay::StringOverlay;
use crate::string::rule::StringRule;

/// A view of strings over a shape. The library hands none out yet: each extraction takes the time of a slice.
#[derive(Debug, Clone)]
pub struct StringGraph<'a, I: OverlayInt> {
    pub(crate) overlay: &'a StringOverlay<I>,
    pub(crate) fill: FillRule,
    pub(crate) solver: Solver,
}

impl<I: OverlayInt> StringGraph<'_, I> {
    /// The shapes into which the strings cut the shape, in the direction of the options and without contours below
    /// their smallest area. The shapes keep all points, and no contour visits a point twice, whatever the options say.
    ///
    /// # Errors
    /// As of [`StringOverlay::try_slice`]; `NotHad`, of the option `preserve_input_collinear`.
    pub fn try_extract_shapes_custom(
        &self,
        rule: StringRule,
        options: IntOverlayOptions<I::WideUInt>,
    ) -> Result<IntShapes<I>, OverlayError> {
        match rule {
            StringRule::Slice => self
                .overlay
                .try_slice_custom(self.fill, options.for_slices(self.solver)?),
        }
    }

    /// The shapes into which the strings cut the shape.
    ///
    /// # Panics
    /// Where [`StringOverlay::try_slice`] is refused.
    #[track_caller]
    pub fn extract_shapes(&self, rule: StringRule) -> IntShapes<I> {
        self.extract_shapes_custom(rule, IntOverlayOptions::default())
    }

    /// The shapes into which the strings cut the shape.
    ///
    /// # Panics
    /// Where [`Self::try_extract_shapes_custom`] is refused.
    #[track_caller]
    pub fn extract_shapes_custom(&self, rule: StringRule, options: IntOverlayOptions<I::WideUInt>) -> IntShapes<I> {
        answered(self.try_extract_shapes_custom(rule, options))
    }
}
