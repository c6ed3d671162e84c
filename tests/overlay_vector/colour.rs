//! Colours as data of edges, and a store that counts what is asked of it.

ghost use Rattle.std.specs.Prelude.{⊤};

use overlay_order::count::ShapeCountBoolean;
use overlay_order::data::{EdgeDataMerge, OverlayEdgeData};

/// The colour of an edge.
#[derive(Debug, Clone, Copy, PartialEq, Eq)]
pub(crate) enum Colour {
    /// Red.
    Red,
    /// Green.
    Green,
    /// Two different colours that were merged.
    Undefined,
}

/// Number of calls of each operation on data.
#[derive(Debug, Clone, Copy, PartialEq, Eq, Default)]
pub(crate) struct Calls {
    /// Equal edges that were merged.
    pub(crate) merges: u32,
    /// Pieces of edges that were cut.
    pub(crate) splits: u32,
    /// Edges whose ends were exchanged.
    pub(crate) reverses: u32,
}

impl OverlayEdgeData for Colour {
    type Store = Calls;

    ghost merges = { λ _ _ _ _ _. ⊤ };

    fn merge(merge: EdgeDataMerge<ShapeCountBoolean, Colour>, store: &mut Calls) -> Colour {
        store.merges = store.merges.saturating_add(1);
        if merge.lhs_data == merge.rhs_data {
            merge.lhs_data
        } else {
            Colour::Undefined
        }
    }

    fn split(self, store: &mut Calls) -> Colour {
        store.splits = store.splits.saturating_add(1);
        self
    }

    fn reversed(self, store: &mut Calls) -> Colour {
        store.reverses = store.reverses.saturating_add(1);
        self
    }
}
