//! Of which points the result of an overlay consists.

/// Of which points the result of an overlay consists.
#[derive(Debug, Clone, Copy, PartialEq, Eq, Hash)]
pub enum OverlayRule {
    /// Those that the subject fills.
    Subject,
    /// Those that the clip fills.
    Clip,
    /// Those that both fill.
    Intersect,
    /// Those that one of them fills, or both.
    Union,
    /// Those that the subject fills and the clip does not.
    Difference,
    /// Those that the clip fills and the subject does not.
    InverseDifference,
    /// Those that exactly one of them fills.
    Xor,
}

impl OverlayRule {
    /// Its number in the library.
    pub(crate) const fn number(self) -> u32 {
        match self {
            Self::Subject => 0,
            Self::Clip => 1,
            Self::Intersect => 2,
            Self::Union => 3,
            Self::Difference => 4,
            Self::InverseDifference => 5,
            Self::Xor => 6,
        }
    }
}
