//! How answers look.

use crate::core::solver::Solver;
use crate::engine::options::{Options, SliceOptions};
use crate::error::OverlayError;
use crate::i_float::int::number::uint::UIntNumber;

/// How an answer looks.
#[derive(Debug, Clone, Copy, PartialEq, Eq)]
pub struct IntOverlayOptions<U: UIntNumber> {
    /// Whether points of given contours on one line with their neighbours are nodes of the arrangement.
    pub preserve_input_collinear: bool,
    /// Which way outlines run; holes run the other way.
    pub output_direction: ContourDirection,
    /// Whether points of the answer on one line with their neighbours are kept.
    pub preserve_output_collinear: bool,
    /// Contours of a smaller area are left out, and so are holes for which no shape is left.
    pub min_output_area: U,
    /// Whether no contour may visit a point twice, as in valid polygons.
    pub ogc: bool,
}

/// Which way a contour runs.
#[derive(Debug, Clone, Copy, PartialEq, Eq, Hash)]
pub enum ContourDirection {
    /// Counterclockwise.
    CounterClockwise,
    /// Clockwise.
    Clockwise,
}

impl<U: UIntNumber> Default for IntOverlayOptions<U> {
    fn default() -> Self {
        Self {
            preserve_input_collinear: false,
            output_direction: ContourDirection::CounterClockwise,
            preserve_output_collinear: false,
            min_output_area: U::ZERO,
            ogc: false,
        }
    }
}

impl<U: UIntNumber> IntOverlayOptions<U> {
    /// Points on one line are kept, of given contours too.
    pub fn keep_all_points() -> Self {
        Self {
            preserve_input_collinear: true,
            preserve_output_collinear: true,
            ..Self::default()
        }
    }

    /// Points of answers on one line are kept.
    pub fn keep_output_points() -> Self {
        Self {
            preserve_output_collinear: true,
            ..Self::default()
        }
    }

    /// Shapes are valid polygons, as OGC defines them.
    pub fn ogc() -> Self {
        Self {
            ogc: true,
            ..Self::default()
        }
    }

    /// The options as the library takes them.
    pub(crate) fn for_engine(&self, solver: Solver) -> Options {
        Options {
            is_clockwise: self.output_direction == ContourDirection::Clockwise,
            keeps_points: self.preserve_output_collinear,
            keeps_given: self.preserve_input_collinear,
            may_touch: !self.ogc,
            solver,
            min_area: self.min_output_area.into(),
        }
    }

    /// The options of slices as the library takes them: a direction and a smallest area. Slices keep all points, and
    /// visit no point twice. Given points on one line were dropped, or kept, as they were added: to ask for them is
    /// refused.
    pub(crate) fn for_slices(&self, solver: Solver) -> Result<SliceOptions, OverlayError> {
        if self.preserve_input_collinear {
            return Err(OverlayError::NotHad("preserve_input_collinear"));
        }
        Ok(SliceOptions {
            is_clockwise: self.output_direction == ContourDirection::Clockwise,
            solver,
            min_area: self.min_output_area.into(),
        })
    }

    /// Refuses the first option that is not the default one, by its name.
    pub(crate) fn refuse_any(&self) -> Result<(), OverlayError> {
        let default = Self::default();
        let options = [
            ("preserve_input_collinear", self.preserve_input_collinear),
            ("output_direction", self.output_direction != default.output_direction),
            ("preserve_output_collinear", self.preserve_output_collinear),
            ("min_output_area", self.min_output_area != default.min_output_area),
            ("ogc", self.ogc),
        ];
        match options.iter().find(|(_, is_asked)| *is_asked) {
            Some((name, _)) => Err(OverlayError::NotHad(name)),
            None => Ok(()),
        }
    }
}
