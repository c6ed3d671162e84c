//! Which windings count as filled.

/// Which windings count as filled.
#[derive(Debug, Clone, Copy, PartialEq, Eq, Hash)]
pub enum FillRule {
    /// Odd windings.
    EvenOdd,
    /// Windings other than 0.
    NonZero,
    /// Windings above 0.
    Positive,
    /// Windings below 0.
    Negative,
}

impl FillRule {
    /// Its number in the library.
    pub(crate) const fn number(self) -> u32 {
        match self {
            Self::EvenOdd => 0,
            Self::NonZero => 1,
            Self::Positive => 2,
            Self::Negative => 3,
        }
    }
}
