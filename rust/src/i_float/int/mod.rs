//! Whole coordinates.

pub mod number;
pub mod point;
pub mod vector;
