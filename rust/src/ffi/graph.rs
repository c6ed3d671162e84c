//! Graphs in memory of the library.

use super::held::Held;
use super::owned::{Freed, Owned};
use super::sys;
use super::width::{Narrow, Wide, Width};
use crate::core::overlay_rule::OverlayRule;
use crate::engine::options::Options;
use crate::error::OverlayError;
use ::core::fmt;

/// A graph in memory of the library, which is freed with it.
pub(crate) type Arranged<W> = Owned<W, sys::Graph>;

// SAFETY: a graph of zeros has no edges; it owns its array, which is a block of malloc, and it "may be asked on several
// threads at once" (polyover.h).
unsafe impl<W: Width> Freed<W> for sys::Graph {
    const FREE: sys::Free<Self> = W::CALLS.graph_free;
}

impl<W: Width> fmt::Debug for Arranged<W> {
    fn fmt(&self, f: &mut fmt::Formatter<'_>) -> fmt::Result {
        f.debug_struct("Arranged").finish_non_exhaustive()
    }
}

impl<W: Width> Arranged<W> {
    /// The shapes of an overlay.
    pub(crate) fn overlay(&self, rule: OverlayRule, options: &Options) -> Result<Held<W>, OverlayError> {
        let (graph, options) = (&self.raw, options.raw());
        // SAFETY: all pointers are of values that outlive the call; the graph is one that `arrange` left.
        unsafe { Held::of(|to| (W::CALLS.graph_overlay)(graph, rule.number(), &options, to)) }
    }

    /// The shapes of an overlay, with links.
    pub(crate) fn hierarchy(&self, rule: OverlayRule, options: &Options) -> Result<Held<W>, OverlayError> {
        let (graph, options) = (&self.raw, options.raw());
        // SAFETY: as for `overlay`.
        unsafe { Held::of(|to| (W::CALLS.graph_hierarchy)(graph, rule.number(), &options, to)) }
    }

    /// Its edges.
    pub(crate) fn edges(&self) -> Result<Held<W>, OverlayError> {
        // SAFETY: as for `overlay`.
        unsafe { Held::of(|to| (W::CALLS.graph_edges)(&self.raw, to)) }
    }
}

/// A graph at whichever width.
#[derive(Debug)]
pub(crate) enum Graph {
    /// At 32 bits.
    Narrow(Arranged<Narrow>),
    /// At 64 bits.
    Wide(Arranged<Wide>),
}
