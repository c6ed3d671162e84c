//! Builders, and what is added to them.

use super::{IntOverlayOptions, Overlay, ShapeType};
use crate::core::contours::takes_contours;
use crate::core::extract::BooleanExtractionBuffer;
use crate::core::integer::OverlayInt;
use crate::core::solver::Solver;
use crate::engine::paths::Paths;
use crate::error::{answered, OverlayError};
use crate::i_float::int::point::IntPoint;
use crate::i_shape::source::int::resource::IntShapeResource;

impl<I: OverlayInt> Overlay<I> {
    /// A builder with room for points.
    pub fn new(capacity: usize) -> Self {
        Self::new_custom(capacity, IntOverlayOptions::default(), Solver::default())
    }

    /// A builder with room for points, with options and a solver.
    pub fn new_custom(capacity: usize, options: IntOverlayOptions<I::WideUInt>, solver: Solver) -> Self {
        Self {
            solver,
            options,
            boolean_buffer: Some(BooleanExtractionBuffer::default()),
            subject: Paths::with_capacity(capacity),
            clip: Paths::new(),
        }
    }

    /// A builder of these contours.
    ///
    /// # Panics
    /// Where memory is refused.
    #[track_caller]
    pub fn from_subj_and_clip<R0, R1>(subj: &R0, clip: &R1) -> Self
    where
        R0: IntShapeResource<I> + ?Sized,
        R1: IntShapeResource<I> + ?Sized,
    {
        Self::from_subj_and_clip_custom(subj, clip, IntOverlayOptions::default(), Solver::default())
    }

    /// A builder of these contours, with options and a solver.
    ///
    /// # Panics
    /// Where memory is refused.
    #[track_caller]
    pub fn from_subj_and_clip_custom<R0, R1>(
        subj: &R0,
        clip: &R1,
        options: IntOverlayOptions<I::WideUInt>,
        solver: Solver,
    ) -> Self
    where
        R0: IntShapeResource<I> + ?Sized,
        R1: IntShapeResource<I> + ?Sized,
    {
        let mut overlay = Self::new_custom(0, options, solver);
        overlay.reinit_with_subj_and_clip(subj, clip);
        overlay
    }

    /// A builder of a subject.
    ///
    /// # Panics
    /// Where memory is refused.
    #[track_caller]
    pub fn from_subj<R: IntShapeResource<I> + ?Sized>(subj: &R) -> Self {
        Self::from_subj_custom(subj, IntOverlayOptions::default(), Solver::default())
    }

    /// A builder of a subject, with options and a solver.
    ///
    /// # Panics
    /// Where memory is refused.
    #[track_caller]
    pub fn from_subj_custom<R: IntShapeResource<I> + ?Sized>(
        subj: &R,
        options: IntOverlayOptions<I::WideUInt>,
        solver: Solver,
    ) -> Self {
        let mut overlay = Self::new_custom(0, options, solver);
        overlay.reinit_with_subj(subj);
        overlay
    }

    /// Replaces the contours by those of a subject.
    ///
    /// # Panics
    /// Where [`Self::try_add_source`] is refused.
    #[track_caller]
    pub fn reinit_with_subj<R: IntShapeResource<I> + ?Sized>(&mut self, subj: &R) {
        self.clear();
        self.add_source(subj, ShapeType::Subject);
    }
}

takes_contours!(Overlay);
