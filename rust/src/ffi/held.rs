//! Answers in memory of the library.

use super::owned::{items, Freed, Owned};
use super::sys;
use super::width::Width;
use ::core::fmt;

/// An answer in memory of the library, which is freed with it.
pub(crate) type Held<W> = Owned<W, sys::Answer<<W as Width>::C>>;

// SAFETY: an answer of zeros has no items; it owns its arrays, which are blocks of malloc (polyover.h).
unsafe impl<W: Width> Freed<W> for sys::Answer<W::C> {
    const FREE: sys::Free<Self> = W::CALLS.free;
}

impl<W: Width> fmt::Debug for Held<W> {
    fn fmt(&self, f: &mut fmt::Formatter<'_>) -> fmt::Result {
        f.debug_struct("Held").finish_non_exhaustive()
    }
}

impl<W: Width> Held<W> {
    /// Coordinates of all points.
    pub(crate) fn coordinates(&self) -> &[W::C] {
        // SAFETY: after `POLYOVER_OK` each array has as many items as its count tells (polyover.h).
        unsafe { items(&self.raw.coordinates) }
    }

    /// How many points there are up to the end of each contour, or of each path.
    pub(crate) fn contour_ends(&self) -> &[usize] {
        // SAFETY: as above.
        unsafe { items(&self.raw.contour_ends) }
    }

    /// How many contours there are up to the end of each shape.
    pub(crate) fn shape_ends(&self) -> &[usize] {
        // SAFETY: as above.
        unsafe { items(&self.raw.shape_ends) }
    }

    /// Which shapes lie in which holes.
    pub(crate) fn links(&self) -> &[sys::Link] {
        // SAFETY: as above.
        unsafe { items(&self.raw.links) }
    }

    /// Which sides of each edge are filled.
    pub(crate) fn fills(&self) -> &[u8] {
        // SAFETY: as above.
        unsafe { items(&self.raw.fills) }
    }
}
