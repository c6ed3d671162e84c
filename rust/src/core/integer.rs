//! Types of coordinates.

use crate::engine::width::Native;

/// A type of coordinates with which the library computes: `i16`, `i32` or `i64`. No other type can be one.
pub trait OverlayInt: Native {}

impl OverlayInt for i16 {}
impl OverlayInt for i32 {}
impl OverlayInt for i64 {}
