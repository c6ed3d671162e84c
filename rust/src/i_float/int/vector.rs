//! Vectors.

use super::number::int::IntNumber;

/// A difference of points.
#[derive(Debug, Clone, Copy, PartialEq, Eq, Hash)]
pub struct IntVector<T: IntNumber = i32> {
    /// To the right.
    pub x: T,
    /// Up.
    pub y: T,
}

impl<T: IntNumber> IntVector<T> {
    /// The vector (x, y).
    #[inline]
    pub const fn new(x: T, y: T) -> Self {
        Self { x, y }
    }

    /// The cross product: above 0 where the other one turns to the left. It is exact for differences of points in the
    /// coordinate range, and stops at the ends of its type for others.
    pub fn cross_product(self, other: Self) -> T::Wide {
        let zero = T::default();
        let product = |a: T, b: T| a.wide_difference(zero).saturating_mul(b.wide_difference(zero));
        T::wide_of(product(self.x, other.y).saturating_sub(product(self.y, other.x)))
    }
}
