//! Edges that are given one by one, and traced edges in memory of the library.

use super::owned::{items, Freed, Owned};
use super::sys::{self, EdgeList, List, Source, Traced};
use super::width::Width;

impl<C> EdgeList<C> {
    /// Edges as the library takes them: coordinates of both ends of each, and the numbers of their sides. It is of use
    /// for as long as the lists.
    pub(super) fn of(coordinates: &[C], sides: &[u8]) -> Self {
        Self {
            coordinates: List::of(coordinates),
            sides: List::of(sides),
        }
    }
}

impl Source {
    /// Whether the given edge was cut into pieces.
    pub(crate) fn is_cut(&self) -> bool {
        self.cut == 1
    }

    /// Whether the given edge runs against the edge that comes from it.
    pub(crate) fn is_reversed(&self) -> bool {
        self.reversed == 1
    }
}

/// Edges, and the given ones that each comes from, in memory of the library, which is freed with them.
pub(crate) type HeldTrace<W> = Owned<W, Traced<<W as Width>::C>>;

// SAFETY: traced edges of zeros are none; they own their arrays, which are blocks of malloc (polyover.h).
unsafe impl<W: Width> Freed<W> for Traced<W::C> {
    const FREE: sys::Free<Self> = W::CALLS.traced_free;
}

impl<W: Width> HeldTrace<W> {
    /// Coordinates of both ends of each edge.
    pub(crate) fn coordinates(&self) -> &[W::C] {
        // SAFETY: after `POLYOVER_OK` each array has as many items as its count tells (polyover.h).
        unsafe { items(&self.raw.coordinates) }
    }

    /// Which sides of each edge are filled.
    pub(crate) fn fills(&self) -> &[u8] {
        // SAFETY: as above.
        unsafe { items(&self.raw.fills) }
    }

    /// How many sources there are up to the end of each edge.
    pub(crate) fn source_ends(&self) -> &[usize] {
        // SAFETY: as above.
        unsafe { items(&self.raw.source_ends) }
    }

    /// The given edges that the edges come from, edge by edge.
    pub(crate) fn sources(&self) -> &[Source] {
        // SAFETY: as above.
        unsafe { items(&self.raw.sources) }
    }
}
