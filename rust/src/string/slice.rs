//! Slices by lines.

use crate::core::fill_rule::FillRule;
use crate::core::integer::OverlayInt;
use crate::core::solver::Solver;
use crate::error::{answered, OverlayError};
use crate::i_shape::int::path::IntPath;
use crate::i_shape::int::shape::IntShapes;
use crate::i_shape::source::int::resource::IntShapeResource;
use crate::string::line::IntLine;
use crate::string::overlay::StringOverlay;

/// Slices in one call. Lines and paths are open.
///
/// ```
/// use polyover::core::fill_rule::FillRule;
/// use polyover::i_float::int::point::IntPoint;
/// use polyover::string::slice::IntSlice;
///
/// let square = [[0, 0], [4, 0], [4, 4], [0, 4]].map(IntPoint::from);
/// assert_eq!(square.slice_by_line([[-2, 1], [6, 1]].map(IntPoint::from), FillRule::NonZero).len(), 2);
/// ```
pub trait IntSlice<I: OverlayInt> {
    /// The shapes into which the paths of a resource cut this one.
    ///
    /// # Errors
    /// As of [`StringOverlay::try_slice`].
    fn try_slice_by_source<R: IntShapeResource<I> + ?Sized>(
        &self,
        source: &R,
        fill_rule: FillRule,
    ) -> Result<IntShapes<I>, OverlayError>;

    /// Slices by the paths of a resource.
    ///
    /// # Panics
    /// Where [`Self::try_slice_by_source`] is refused.
    #[track_caller]
    fn slice_by_source<R: IntShapeResource<I> + ?Sized>(&self, source: &R, fill_rule: FillRule) -> IntShapes<I> {
        answered(self.try_slice_by_source(source, fill_rule))
    }

    /// The tiles into which the cells of a grid cut this one.
    ///
    /// # Errors
    /// As of [`StringOverlay::try_slice_by_grid`].
    fn try_slice_by_grid(&self, width: I, height: I, fill_rule: FillRule) -> Result<IntShapes<I>, OverlayError>;

    /// Slices by the cells of a grid, as [`StringOverlay::try_slice_by_grid`] does.
    ///
    /// # Panics
    /// Where [`Self::try_slice_by_grid`] is refused.
    #[track_caller]
    fn slice_by_grid(&self, width: I, height: I, fill_rule: FillRule) -> IntShapes<I> {
        answered(self.try_slice_by_grid(width, height, fill_rule))
    }

    /// Slices by a line.
    ///
    /// # Panics
    /// Where [`Self::try_slice_by_source`] is refused.
    #[track_caller]
    fn slice_by_line(&self, line: IntLine<I>, fill_rule: FillRule) -> IntShapes<I> {
        self.slice_by_source(&line, fill_rule)
    }

    /// Slices by lines.
    ///
    /// # Panics
    /// Where [`Self::try_slice_by_source`] is refused.
    #[track_caller]
    fn slice_by_lines(&self, lines: &[IntLine<I>], fill_rule: FillRule) -> IntShapes<I> {
        self.slice_by_source(lines, fill_rule)
    }

    /// Slices by a path.
    ///
    /// # Panics
    /// Where [`Self::try_slice_by_source`] is refused.
    #[track_caller]
    fn slice_by_path(&self, path: &IntPath<I>, fill_rule: FillRule) -> IntShapes<I> {
        self.slice_by_source(path, fill_rule)
    }

    /// Slices by paths.
    ///
    /// # Panics
    /// Where [`Self::try_slice_by_source`] is refused.
    #[track_caller]
    fn slice_by_paths(&self, paths: &[IntPath<I>], fill_rule: FillRule) -> IntShapes<I> {
        self.slice_by_source(paths, fill_rule)
    }
}

impl<I, T> IntSlice<I> for T
where
    I: OverlayInt,
    T: IntShapeResource<I> + ?Sized,
{
    fn try_slice_by_source<R: IntShapeResource<I> + ?Sized>(
        &self,
        source: &R,
        fill_rule: FillRule,
    ) -> Result<IntShapes<I>, OverlayError> {
        StringOverlay::try_of(self, source)?.try_slice(fill_rule, Solver::default())
    }

    fn try_slice_by_grid(&self, width: I, height: I, fill_rule: FillRule) -> Result<IntShapes<I>, OverlayError> {
        let mut overlay = StringOverlay::new(0);
        overlay.try_add_shape_source(self)?;
        overlay.try_slice_by_grid(width, height, fill_rule, Solver::default())
    }
}
