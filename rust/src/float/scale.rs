//! Floats on a grid of a fixed scale: so many steps in one unit.

use crate::core::fill_rule::FillRule;
use crate::core::overlay_rule::OverlayRule;
use crate::error::OverlayError;
use crate::float::grid::Grid;
use crate::float::relate::FloatRelate;
use crate::float::single::SingleFloatOverlay;
use crate::i_float::float::compatible::FloatPointCompatible;
use crate::i_shape::base::data::Shapes;
use crate::i_shape::source::resource::ShapeResource;
use ::core::fmt;

/// Why a call with a fixed scale was refused.
#[derive(Debug, Clone, Copy, PartialEq, Eq, Hash)]
#[non_exhaustive]
pub enum FixedScaleOverlayError {
    /// The scale is not a number, or infinite.
    ScaleNonFinite,
    /// The scale is not above 0.
    ScaleNonPositive,
    /// With this scale some coordinate is out of the range of the grid.
    ScaleTooLarge,
    /// The reciprocal of the scale is infinite.
    ScaleTooSmall,
    /// A coordinate is not a number, infinite, or too large a float.
    InvalidRect,
    /// The library refused the call.
    Refused(OverlayError),
}

impl fmt::Display for FixedScaleOverlayError {
    fn fmt(&self, f: &mut fmt::Formatter<'_>) -> fmt::Result {
        f.write_str(match self {
            Self::ScaleNonFinite => "the scale is not a number, or infinite",
            Self::ScaleNonPositive => "the scale is not above 0",
            Self::ScaleTooLarge => "with this scale a coordinate is out of the range of the grid",
            Self::ScaleTooSmall => "the reciprocal of the scale is infinite",
            Self::InvalidRect => "a coordinate is not a number, infinite, or too large a float",
            Self::Refused(error) => return error.fmt(f),
        })
    }
}

impl ::core::error::Error for FixedScaleOverlayError {}

/// A grid of a fixed scale that has all points of two resources.
pub(crate) fn fixed_grid<P: FloatPointCompatible>(
    one: &(impl ShapeResource<P> + ?Sized),
    other: &(impl ShapeResource<P> + ?Sized),
    scale: P::Scalar,
) -> Result<Grid<i64>, FixedScaleOverlayError> {
    let grid = Grid::with_scale(scale)?;
    // (what is wrong with the coordinates alone is told first)
    Grid::<i64>::finest(one, other).map_err(|_| FixedScaleOverlayError::InvalidRect)?;
    Ok(grid)
}

/// What a refusal on a grid of a fixed scale says.
pub(crate) fn fixed(error: OverlayError) -> FixedScaleOverlayError {
    match error {
        OverlayError::OutOfRange => FixedScaleOverlayError::ScaleTooLarge,
        OverlayError::NotFinite => FixedScaleOverlayError::InvalidRect,
        error => FixedScaleOverlayError::Refused(error),
    }
}

/// Overlays in one call, with a fixed scale, on a grid of 61 bits.
///
/// ```
/// use polyover::core::{fill_rule::FillRule, overlay_rule::OverlayRule};
/// use polyover::float::scale::{FixedScaleFloatOverlay, FixedScaleOverlayError};
///
/// let square = [[0.0, 0.0], [0.1, 0.0], [0.1, 0.1], [0.0, 0.1]];
/// let union = |scale| square.overlay_with_fixed_scale(&square, OverlayRule::Union, FillRule::EvenOdd, scale);
/// assert_eq!(union(1000.0), Ok(vec![vec![vec![[0.0, 0.1], [0.0, 0.0], [0.1, 0.0], [0.1, 0.1]]]]));
/// assert_eq!(union(1e30), Err(FixedScaleOverlayError::ScaleTooLarge));
/// ```
pub trait FixedScaleFloatOverlay<R, P>
where
    R: ShapeResource<P> + ?Sized,
    P: FloatPointCompatible,
{
    /// The shapes round the region of the rules.
    ///
    /// # Errors
    /// Where the scale, a coordinate or the call is refused.
    fn overlay_with_fixed_scale(
        &self,
        source: &R,
        overlay_rule: OverlayRule,
        fill_rule: FillRule,
        scale: P::Scalar,
    ) -> Result<Shapes<P>, FixedScaleOverlayError>;
}

impl<R0, R1, P> FixedScaleFloatOverlay<R1, P> for R0
where
    R0: ShapeResource<P> + ?Sized,
    R1: ShapeResource<P> + ?Sized,
    P: FloatPointCompatible,
{
    fn overlay_with_fixed_scale(
        &self,
        source: &R1,
        overlay_rule: OverlayRule,
        fill_rule: FillRule,
        scale: P::Scalar,
    ) -> Result<Shapes<P>, FixedScaleOverlayError> {
        let grid = fixed_grid(self, source, scale)?;
        self.try_overlay_on(source, overlay_rule, fill_rule, &grid)
            .map_err(fixed)
    }
}

/// Declares the calls of a trait, one for each relation.
macro_rules! relations_with_fixed_scale {
    ($($name:ident, $relation:ident;)*) => {
        /// Relations in one call, under the even-odd fill rule, with a fixed scale, on a grid of 61 bits.
        pub trait FixedScaleFloatRelate<R, P>
        where
            R: ShapeResource<P> + ?Sized,
            P: FloatPointCompatible,
        {$(
            /// The relation of this name.
            ///
            /// # Errors
            /// Where the scale, a coordinate or the call is refused.
            fn $name(&self, other: &R, scale: P::Scalar) -> Result<bool, FixedScaleOverlayError>;
        )*}

        impl<R0, R1, P> FixedScaleFloatRelate<R1, P> for R0
        where
            R0: ShapeResource<P> + ?Sized,
            R1: ShapeResource<P> + ?Sized,
            P: FloatPointCompatible,
        {$(
            fn $name(&self, other: &R1, scale: P::Scalar) -> Result<bool, FixedScaleOverlayError> {
                let grid = fixed_grid(self, other, scale)?;
                let relations = self.try_relations_on(other, &grid).map_err(fixed)?;
                Ok(relations.$relation())
            }
        )*}
    };
}

relations_with_fixed_scale! {
    intersects_with_fixed_scale, intersects;
    interiors_intersect_with_fixed_scale, interiors_intersect;
    touches_with_fixed_scale, touches;
    point_intersects_with_fixed_scale, point_intersects;
    within_with_fixed_scale, within;
    disjoint_with_fixed_scale, disjoint;
    covers_with_fixed_scale, covers;
}
