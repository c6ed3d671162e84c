//! Clips of lines of floats.

use crate::core::fill_rule::FillRule;
use crate::core::integer::OverlayInt;
use crate::core::solver::Solver;
use crate::error::{answered, OverlayError};
use crate::float::grid::Grid;
use crate::i_float::float::compatible::FloatPointCompatible;
use crate::i_shape::base::data::Paths;
use crate::i_shape::source::resource::ShapeResource;
use crate::string::clip::ClipRule;
use crate::string::overlay::StringOverlay;

/// Clips in one call: of the paths of this resource, which are open, by a shape.
///
/// ```
/// use polyover::core::fill_rule::FillRule;
/// use polyover::float::clip::FloatClip;
/// use polyover::string::clip::ClipRule;
///
/// let square = [[0.0, 0.0], [4.0, 0.0], [4.0, 4.0], [0.0, 4.0]];
/// let inside = ClipRule { invert: false, boundary_included: false };
/// let line = [[-1.0, 1.5], [5.0, 1.5]];
/// assert_eq!(line.clip_by(&square, FillRule::NonZero, inside), [[[0.0, 1.5], [4.0, 1.5]]]);
/// ```
pub trait FloatClip<R, P>
where
    R: ShapeResource<P> + ?Sized,
    P: FloatPointCompatible,
{
    /// The parts that a shape and the rules keep, on a grid.
    ///
    /// # Errors
    /// As of [`StringOverlay::try_clip`]; `NotFinite`; `OutOfRange` where the grid does not have a coordinate.
    fn try_clip_by_on<I: OverlayInt>(
        &self,
        shape: &R,
        fill_rule: FillRule,
        clip_rule: ClipRule,
        grid: &Grid<I>,
    ) -> Result<Paths<P>, OverlayError>;

    /// The parts that a shape and the rules keep, on the finest grid of 61 bits.
    ///
    /// # Errors
    /// As of [`Self::try_clip_by_on`].
    fn try_clip_by(&self, shape: &R, fill_rule: FillRule, clip_rule: ClipRule) -> Result<Paths<P>, OverlayError>;

    /// The parts that a shape and the rules keep, on the finest grid of 61 bits.
    ///
    /// # Panics
    /// Where [`Self::try_clip_by`] is refused.
    #[track_caller]
    fn clip_by(&self, shape: &R, fill_rule: FillRule, clip_rule: ClipRule) -> Paths<P> {
        answered(self.try_clip_by(shape, fill_rule, clip_rule))
    }
}

impl<R0, R1, P> FloatClip<R1, P> for R0
where
    R0: ShapeResource<P> + ?Sized,
    R1: ShapeResource<P> + ?Sized,
    P: FloatPointCompatible,
{
    fn try_clip_by_on<I: OverlayInt>(
        &self,
        shape: &R1,
        fill_rule: FillRule,
        clip_rule: ClipRule,
        grid: &Grid<I>,
    ) -> Result<Paths<P>, OverlayError> {
        let mut overlay = StringOverlay::<I>::new(0);
        overlay.shape = grid.paths(shape)?;
        overlay.strings = grid.paths(self)?;
        grid.all_paths(&overlay.try_clip(fill_rule, clip_rule, Solver::default())?)
    }

    fn try_clip_by(&self, shape: &R1, fill_rule: FillRule, clip_rule: ClipRule) -> Result<Paths<P>, OverlayError> {
        self.try_clip_by_on(shape, fill_rule, clip_rule, &Grid::<i64>::finest(self, shape)?)
    }
}
