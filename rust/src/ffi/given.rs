//! Lists that are lent to the library.

use super::sys;
use crate::i_float::int::number::int::IntNumber;
use crate::i_float::int::point::IntPoint;
use ::core::slice;

/// Points as their coordinates, x before y.
pub(crate) fn coordinates_of<I: IntNumber>(points: &[IntPoint<I>]) -> &[I] {
    // (a list of points has twice as many numbers, whose bytes fit `isize`)
    let count = points.len().saturating_mul(2);
    // SAFETY: `IntPoint` is `repr(C)` of two `I`, so it has the alignment of `I` and no padding: a slice of points is
    // twice as many `I`, of the same size in bytes.
    unsafe { slice::from_raw_parts(points.as_ptr().cast::<I>(), count) }
}

/// Paths one behind the other: their coordinates, and how many points there are up to the end of each.
#[derive(Debug, Clone, Copy)]
pub(crate) struct Given<'a, C> {
    pub(crate) coordinates: &'a [C],
    pub(crate) ends: &'a [usize],
}

impl<C> Given<'_, C> {
    /// No path.
    pub(crate) const NONE: Self = Self {
        coordinates: &[],
        ends: &[],
    };

    /// The struct that the library takes; it is of use for as long as the lists.
    pub(super) fn raw(&self) -> sys::Contours<C> {
        sys::Contours {
            coordinates: sys::List::of(self.coordinates),
            ends: sys::List::of(self.ends),
        }
    }
}
