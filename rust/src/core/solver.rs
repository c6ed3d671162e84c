//! How edges are split where they meet.

/// How edges are split where they meet. Of `i_overlay` it has none of the strategies.
#[derive(Debug, Clone, Copy, PartialEq, Eq, Hash)]
pub struct Solver {
    number: u32,
}

impl Solver {
    /// By snap rounding, in one pass, which always ends: the default.
    pub const SNAPPED: Self = Self { number: 0 };
    /// In rounds, 64 at most; where edges still meet then, the call is refused
    /// ([`NotSettled`](crate::error::OverlayError::NotSettled)).
    pub const ROUNDS: Self = Self { number: 1 };

    /// Its number in the library.
    pub(crate) const fn number(self) -> u32 {
        self.number
    }
}

impl Default for Solver {
    fn default() -> Self {
        Self::SNAPPED
    }
}
