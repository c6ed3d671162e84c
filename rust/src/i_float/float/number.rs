//! Types of floats.

use ::core::fmt::Debug;

/// A type of floats: `f32` or `f64`.
pub trait FloatNumber: Copy + PartialOrd + Debug + Default + Send + Sync + 'static {
    /// Up to how far from 0 a coordinate is taken: 2^1022 of `f64`, 2^126 of `f32`.
    const LIMIT: f64;
    /// The same number in 64 bits.
    fn to_f64(self) -> f64;
    /// The nearest number of this type.
    fn from_float(value: f64) -> Self;
}

impl FloatNumber for f64 {
    const LIMIT: f64 = f64::from_bits((1023 + 1022) << 52);

    fn to_f64(self) -> f64 {
        self
    }

    fn from_float(value: f64) -> Self {
        value
    }
}

impl FloatNumber for f32 {
    const LIMIT: f64 = f64::from_bits((1023 + 126) << 52);

    fn to_f64(self) -> f64 {
        self.into()
    }

    // (no other conversion rounds)
    #[allow(clippy::as_conversions)]
    fn from_float(value: f64) -> Self {
        value as Self
    }
}
