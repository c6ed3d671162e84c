//! Coordinates of floats.

pub mod compatible;
pub mod number;
