//! Options as the numbers that the library takes.

use crate::core::solver::Solver;
use crate::ffi::sys;

/// How an answer looks, and how edges are split.
#[derive(Debug, Clone, Copy)]
pub(crate) struct Options {
    pub(crate) is_clockwise: bool,
    pub(crate) keeps_points: bool,
    pub(crate) keeps_given: bool,
    pub(crate) may_touch: bool,
    pub(crate) solver: Solver,
    pub(crate) min_area: u128,
}

/// An area as the options of a width have it.
pub(crate) trait Area {
    /// The area, or the largest one that is had.
    fn of(area: u128) -> Self;
}

impl Area for sys::WideArea {
    fn of(area: u128) -> Self {
        Self {
            high: low(area >> 64),
            low: low(area),
        }
    }
}

/// The areas of `i16` and `i32` coordinates have 64 bits at most.
impl Area for u64 {
    fn of(area: u128) -> Self {
        Self::try_from(area).unwrap_or(Self::MAX)
    }
}

/// The low 64 bits of a number.
fn low(number: u128) -> u64 {
    let [a, b, c, d, e, f, g, h, ..] = number.to_le_bytes();
    u64::from_le_bytes([a, b, c, d, e, f, g, h])
}

impl Options {
    /// The options as the library takes them.
    pub(crate) fn raw<A: Area>(&self) -> sys::Options<A> {
        sys::Options {
            direction: self.is_clockwise.into(),
            // (which points on one line are kept: a sum)
            keep: u32::from(self.keeps_points) | u32::from(self.keeps_given) << 1,
            touching: self.may_touch.into(),
            solver: self.solver.number(),
            min_area: A::of(self.min_area),
        }
    }
}

/// How slices look, and how edges are split.
#[derive(Debug, Clone, Copy)]
pub(crate) struct SliceOptions {
    pub(crate) is_clockwise: bool,
    pub(crate) solver: Solver,
    pub(crate) min_area: u128,
}

impl SliceOptions {
    /// The options as the library takes them.
    pub(crate) fn raw<A: Area>(&self) -> sys::SliceOptions<A> {
        sys::SliceOptions {
            direction: self.is_clockwise.into(),
            solver: self.solver.number(),
            min_area: A::of(self.min_area),
        }
    }
}

/// Which parts of lines a clip keeps.
#[derive(Debug, Clone, Copy)]
pub(crate) struct Keep {
    pub(crate) is_inverted: bool,
    pub(crate) has_boundary: bool,
}

impl Keep {
    /// The options of a clip.
    pub(crate) fn with(self, solver: Solver) -> sys::ClipOptions {
        sys::ClipOptions {
            invert: self.is_inverted.into(),
            boundary: self.has_boundary.into(),
            solver: solver.number(),
        }
    }
}
