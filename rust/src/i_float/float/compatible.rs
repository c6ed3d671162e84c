//! Points of floats.

use super::number::FloatNumber;

/// A point of floats. A type of yours may implement it.
///
/// ```
/// use polyover::i_float::float::compatible::FloatPointCompatible;
///
/// #[derive(Clone, Copy)]
/// struct Place {
///     east: f64,
///     north: f64,
/// }
///
/// impl FloatPointCompatible for Place {
///     type Scalar = f64;
///     fn from_xy(east: f64, north: f64) -> Self {
///         Self { east, north }
///     }
///     fn x(&self) -> f64 {
///         self.east
///     }
///     fn y(&self) -> f64 {
///         self.north
///     }
/// }
/// ```
pub trait FloatPointCompatible: Copy {
    /// Its coordinates.
    type Scalar: FloatNumber;
    /// The point (x, y).
    fn from_xy(x: Self::Scalar, y: Self::Scalar) -> Self;
    /// To the right.
    fn x(&self) -> Self::Scalar;
    /// Up.
    fn y(&self) -> Self::Scalar;
}

impl<T: FloatNumber> FloatPointCompatible for [T; 2] {
    type Scalar = T;

    fn from_xy(x: T, y: T) -> Self {
        [x, y]
    }

    fn x(&self) -> T {
        let [x, _] = *self;
        x
    }

    fn y(&self) -> T {
        let [_, y] = *self;
        y
    }
}
