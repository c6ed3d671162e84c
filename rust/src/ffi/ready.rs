//! Shapes in memory of the library that are asked where points lie.

use super::calls::done;
use super::owned::{Freed, Owned};
use super::sys;
use super::width::{Narrow, Wide, Width};
use crate::error::OverlayError;

/// A struct of the library for such a shape.
pub(crate) trait Raw<W: Width>: Freed<W> {
    /// The call that writes where points lie.
    const LOCATE: sys::Locate<Self, W::C>;
}

// SAFETY: a shape of zeros has no boundary; it owns its arrays, which are blocks of malloc, and it "may be asked on
// several threads at once" (polyover.h).
unsafe impl<W: Width> Freed<W> for sys::Prepared {
    const FREE: sys::Free<Self> = W::CALLS.prepared_free;
}

impl<W: Width> Raw<W> for sys::Prepared {
    const LOCATE: sys::Locate<Self, W::C> = W::CALLS.prepared_locate;
}

// SAFETY: as above; a shape of zeros has no edges.
unsafe impl<W: Width> Freed<W> for sys::Exact {
    const FREE: sys::Free<Self> = W::CALLS.exact_free;
}

impl<W: Width> Raw<W> for sys::Exact {
    const LOCATE: sys::Locate<Self, W::C> = W::CALLS.exact_locate;
}

/// Such a shape in memory of the library, which is freed with it.
pub(crate) type Ready<W, R> = Owned<W, R>;

impl<W: Width, R: Raw<W>> Ready<W, R> {
    /// Writes where points lie; there is a place for each point.
    pub(crate) fn ask(&self, points: &[W::C], locations: &mut [u8]) -> Result<(), OverlayError> {
        let (at, count, room) = (points.as_ptr(), points.len(), locations.len());
        // SAFETY: pointers and counts are those of slices, and what is written lies apart; a call of the library left
        // the shape.
        done(unsafe { R::LOCATE(&self.raw, at, count, locations.as_mut_ptr(), room) })
    }
}

/// Such a shape at whichever width.
pub(crate) enum Prepared<R: Raw<Narrow> + Raw<Wide>> {
    /// At 32 bits.
    Narrow(Ready<Narrow, R>),
    /// At 64 bits.
    Wide(Ready<Wide, R>),
}
