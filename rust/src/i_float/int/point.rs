//! Points.

use super::number::int::IntNumber;
use super::vector::IntVector;
use ::core::fmt;
use ::core::ops::Sub;

/// A point, ordered by x and then by y.
#[repr(C)]
#[derive(Debug, Clone, Copy, PartialEq, Eq, PartialOrd, Ord, Hash, Default)]
pub struct IntPoint<T: IntNumber = i32> {
    /// To the right.
    pub x: T,
    /// Up.
    pub y: T,
}

impl<T: IntNumber> IntPoint<T> {
    /// The point (x, y).
    #[inline]
    pub const fn new(x: T, y: T) -> Self {
        Self { x, y }
    }
}

impl<T: IntNumber + fmt::Display> fmt::Display for IntPoint<T> {
    fn fmt(&self, f: &mut fmt::Formatter<'_>) -> fmt::Result {
        write!(f, "[{}, {}]", self.x, self.y)
    }
}

/// The vector between two points. It overflows as the subtraction of their coordinates does.
#[allow(clippy::arithmetic_side_effects)]
impl<T: IntNumber + Sub<Output = T>> Sub for IntPoint<T> {
    type Output = IntVector<T>;

    #[inline]
    fn sub(self, other: Self) -> IntVector<T> {
        IntVector::new(self.x - other.x, self.y - other.y)
    }
}

impl<T: IntNumber> From<[T; 2]> for IntPoint<T> {
    fn from([x, y]: [T; 2]) -> Self {
        Self { x, y }
    }
}

impl<T: IntNumber> From<IntPoint<T>> for [T; 2] {
    fn from(point: IntPoint<T>) -> Self {
        [point.x, point.y]
    }
}

impl<T: IntNumber> From<(T, T)> for IntPoint<T> {
    fn from((x, y): (T, T)) -> Self {
        Self { x, y }
    }
}

impl<T: IntNumber> From<IntPoint<T>> for (T, T) {
    fn from(point: IntPoint<T>) -> Self {
        (point.x, point.y)
    }
}
