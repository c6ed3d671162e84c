//! Sets of sources as data of edges, and a store that grants a number of unions.

ghost use Rattle.std.specs.Prelude.{⊤};

use overlay_order::count::ShapeCountBoolean;
use overlay_order::data::{EdgeDataMerge, OverlayEdgeData};

/// From which sources an edge comes, a bit for each, and whether it is seen against its way.
#[derive(Debug, Clone, Copy, PartialEq, Eq)]
pub(crate) struct Sources {
    /// The sources.
    pub(crate) bits: u8,
    /// It runs against the way in which it was given.
    pub(crate) is_against: bool,
}

/// The unions still to be granted; nothing is granted before it is filled.
#[derive(Debug, Clone, Copy, PartialEq, Eq, Default)]
pub(crate) struct Grants {
    /// Number of granted unions, once it is filled.
    pub(crate) left: Option<u32>,
    /// Number of refused unions.
    pub(crate) refused: u32,
}

impl Grants {
    // Takes one of the unions left, if there is one.
    fn take(&mut self) -> bool {
        match self.left {
            Some(left) if left > 0 => {
                self.left = Some(left - 1);
                true
            }
            _ => {
                self.refused = self.refused.saturating_add(1);
                false
            }
        }
    }
}

impl OverlayEdgeData for Sources {
    type Store = Grants;

    ghost merges = { λ _ _ _ _ _. ⊤ };

    fn merge(merge: EdgeDataMerge<ShapeCountBoolean, Sources>, store: &mut Grants) -> Sources {
        if store.take() {
            Sources {
                bits: merge.lhs_data.bits | merge.rhs_data.bits,
                is_against: merge.lhs_data.is_against,
            }
        } else {
            merge.lhs_data
        }
    }

    fn split(self, _store: &mut Grants) -> Sources {
        self
    }

    fn reversed(self, _store: &mut Grants) -> Sources {
        Sources {
            bits: self.bits,
            is_against: !self.is_against,
        }
    }
}
