//! Calls of `i_overlay` that have another name now.

use super::{IntOverlayOptions, Overlay, ShapeType};
use crate::core::contours::takes_contours_by_old_names;
use crate::core::integer::OverlayInt;
use crate::core::solver::Solver;
use crate::i_float::int::point::IntPoint;
use crate::i_shape::flat::buffer::FlatContoursBuffer;
use crate::i_shape::int::shape::{IntContour, IntShape};

/// Each panics where the call that its note names does.
impl<I: OverlayInt> Overlay<I> {
    /// A builder of two contours.
    #[deprecated(note = "Use `from_subj_and_clip` instead.")]
    #[track_caller]
    pub fn with_contour(subj: &[IntPoint<I>], clip: &[IntPoint<I>]) -> Self {
        Self::from_subj_and_clip(subj, clip)
    }

    /// A builder of contours.
    #[deprecated(note = "Use `from_subj_and_clip` instead.")]
    #[track_caller]
    pub fn with_contours(subj: &[IntContour<I>], clip: &[IntContour<I>]) -> Self {
        Self::from_subj_and_clip(subj, clip)
    }

    /// A builder of shapes.
    #[deprecated(note = "Use `from_subj_and_clip` instead.")]
    #[track_caller]
    pub fn with_shapes(subj: &[IntShape<I>], clip: &[IntShape<I>]) -> Self {
        Self::from_subj_and_clip(subj, clip)
    }

    /// A builder of two contours, with options and a solver.
    #[deprecated(note = "Use `from_subj_and_clip_custom` instead.")]
    #[track_caller]
    pub fn with_contour_custom(
        subj: &[IntPoint<I>],
        clip: &[IntPoint<I>],
        options: IntOverlayOptions<I::WideUInt>,
        solver: Solver,
    ) -> Self {
        Self::from_subj_and_clip_custom(subj, clip, options, solver)
    }

    /// A builder of contours, with options and a solver.
    #[deprecated(note = "Use `from_subj_and_clip_custom` instead.")]
    #[track_caller]
    pub fn with_contours_custom(
        subj: &[IntContour<I>],
        clip: &[IntContour<I>],
        options: IntOverlayOptions<I::WideUInt>,
        solver: Solver,
    ) -> Self {
        Self::from_subj_and_clip_custom(subj, clip, options, solver)
    }

    /// A builder of shapes, with options and a solver.
    #[deprecated(note = "Use `from_subj_and_clip_custom` instead.")]
    #[track_caller]
    pub fn with_shapes_options(
        subj: &[IntShape<I>],
        clip: &[IntShape<I>],
        options: IntOverlayOptions<I::WideUInt>,
        solver: Solver,
    ) -> Self {
        Self::from_subj_and_clip_custom(subj, clip, options, solver)
    }

    /// Adds the contours of a buffer.
    #[deprecated(note = "Use `add_source` instead.")]
    #[track_caller]
    pub fn add_flat_buffer(&mut self, buffer: &FlatContoursBuffer<I>, shape_type: ShapeType) {
        self.add_source(buffer, shape_type);
    }
}

takes_contours_by_old_names!(Overlay);
