//! Numbers.

/// Coordinates.
pub mod int {
    use super::uint::UIntNumber;
    use ::core::fmt::Debug;
    use ::core::hash::Hash;

    /// A type of coordinates.
    pub trait IntNumber: Copy + Ord + Hash + Debug + Default + Send + Sync + 'static {
        /// A type in which cross products of differences are exact, of coordinates in the range.
        type Wide: Copy + Ord + Debug + Send + Sync + 'static;
        /// A type of areas.
        type WideUInt: UIntNumber;
        /// The difference, as a whole number.
        fn wide_difference(self, other: Self) -> i128;
        /// A whole number, or the end of the type that is nearest to it.
        fn wide_of(whole: i128) -> Self::Wide;
    }

    macro_rules! numbers {
        ($($int:ty, $wide:ty, $uint:ty;)*) => {$(
            impl IntNumber for $int {
                type Wide = $wide;
                type WideUInt = $uint;

                fn wide_difference(self, other: Self) -> i128 {
                    i128::from(self).saturating_sub(i128::from(other))
                }

                fn wide_of(whole: i128) -> $wide {
                    <$wide>::try_from(whole).unwrap_or(if whole < 0 { <$wide>::MIN } else { <$wide>::MAX })
                }
            }
        )*};
    }

    numbers! {
        i16, i32, u32;
        i32, i64, u64;
        i64, i128, u128;
    }
}

/// Areas.
pub mod uint {
    use ::core::fmt::Debug;

    /// A type of areas.
    pub trait UIntNumber: Copy + Ord + Debug + Default + Into<u128> + TryFrom<u128> + Send + Sync + 'static {
        /// No area.
        const ZERO: Self;
        /// The greatest number of the type.
        const MAX: Self;
    }

    macro_rules! areas {
        ($($uint:ty)*) => {$(
            impl UIntNumber for $uint {
                const ZERO: Self = 0;
                const MAX: Self = Self::MAX;
            }
        )*};
    }

    areas!(u32 u64 u128);
}
