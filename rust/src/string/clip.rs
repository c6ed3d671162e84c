//! Clips of lines.

use crate::core::fill_rule::FillRule;
use crate::core::integer::OverlayInt;
use crate::core::solver::Solver;
use crate::error::{answered, OverlayError};
use crate::i_shape::int::path::IntPath;
use crate::i_shape::source::int::resource::IntShapeResource;
use crate::string::line::IntLine;
use crate::string::overlay::StringOverlay;
use alloc::vec::Vec;

/// Which parts of lines a clip keeps.
#[derive(Debug, Clone, Copy, PartialEq, Eq, Hash)]
pub struct ClipRule {
    /// Those outside, and not those inside.
    pub invert: bool,
    /// Also those on the boundary.
    pub boundary_included: bool,
}

/// Clips in one call. Lines and paths are open.
///
/// ```
/// use polyover::core::fill_rule::FillRule;
/// use polyover::i_float::int::point::IntPoint;
/// use polyover::string::clip::{ClipRule, IntClip};
///
/// let square = [[0, 0], [4, 0], [4, 4], [0, 4]].map(IntPoint::from);
/// let inside = ClipRule { invert: false, boundary_included: false };
/// let line = [[-2, 1], [6, 1]].map(IntPoint::from);
/// assert_eq!(square.clip_line(line, FillRule::NonZero, inside), [[[0, 1], [4, 1]].map(IntPoint::from)]);
/// ```
pub trait IntClip<I: OverlayInt> {
    /// The parts of the paths of a resource that the rules keep.
    ///
    /// # Errors
    /// As of [`StringOverlay::try_clip`].
    fn try_clip_source<R: IntShapeResource<I> + ?Sized>(
        &self,
        source: &R,
        fill_rule: FillRule,
        clip_rule: ClipRule,
    ) -> Result<Vec<IntPath<I>>, OverlayError>;

    /// Clips the paths of a resource.
    ///
    /// # Panics
    /// Where [`Self::try_clip_source`] is refused.
    #[track_caller]
    fn clip_source<R: IntShapeResource<I> + ?Sized>(
        &self,
        source: &R,
        fill_rule: FillRule,
        clip_rule: ClipRule,
    ) -> Vec<IntPath<I>> {
        answered(self.try_clip_source(source, fill_rule, clip_rule))
    }

    /// Clips a line.
    ///
    /// # Panics
    /// Where [`Self::try_clip_source`] is refused.
    #[track_caller]
    fn clip_line(&self, line: IntLine<I>, fill_rule: FillRule, clip_rule: ClipRule) -> Vec<IntPath<I>> {
        self.clip_source(&line, fill_rule, clip_rule)
    }

    /// Clips lines.
    ///
    /// # Panics
    /// Where [`Self::try_clip_source`] is refused.
    #[track_caller]
    fn clip_lines(&self, lines: &[IntLine<I>], fill_rule: FillRule, clip_rule: ClipRule) -> Vec<IntPath<I>> {
        self.clip_source(lines, fill_rule, clip_rule)
    }

    /// Clips a path.
    ///
    /// # Panics
    /// Where [`Self::try_clip_source`] is refused.
    #[track_caller]
    fn clip_path(&self, path: &IntPath<I>, fill_rule: FillRule, clip_rule: ClipRule) -> Vec<IntPath<I>> {
        self.clip_source(path, fill_rule, clip_rule)
    }

    /// Clips paths.
    ///
    /// # Panics
    /// Where [`Self::try_clip_source`] is refused.
    #[track_caller]
    fn clip_paths(&self, paths: &[IntPath<I>], fill_rule: FillRule, clip_rule: ClipRule) -> Vec<IntPath<I>> {
        self.clip_source(paths, fill_rule, clip_rule)
    }
}

impl<I, T> IntClip<I> for T
where
    I: OverlayInt,
    T: IntShapeResource<I> + ?Sized,
{
    fn try_clip_source<R: IntShapeResource<I> + ?Sized>(
        &self,
        source: &R,
        fill_rule: FillRule,
        clip_rule: ClipRule,
    ) -> Result<Vec<IntPath<I>>, OverlayError> {
        StringOverlay::try_of(self, source)?.try_clip(fill_rule, clip_rule, Solver::default())
    }
}
