//! Boolean operations on polygons with whole coordinates, by a library whose every function is proved.
//!
//! The names are those of `i_overlay` 9, so `i_overlay = { package = "polyover", version = "0.2" }` in `Cargo.toml` may
//! be all that changes in a program on whole coordinates.
//!
//! ```
//! use polyover::core::{fill_rule::FillRule, overlay_rule::OverlayRule, single::SingleIntOverlay};
//! use polyover::i_float::int::point::IntPoint;
//!
//! let square = [[0, 0], [4, 0], [4, 4], [0, 4]].map(IntPoint::from);
//! let other = [[2, 2], [6, 2], [6, 6], [2, 6]].map(IntPoint::from);
//! let shapes = square.overlay(&other, OverlayRule::Intersect, FillRule::NonZero);
//! assert_eq!(shapes, [[[[2, 4], [2, 2], [4, 2], [4, 4]].map(IntPoint::from)]]);
//! ```
//!
//! Coordinates are `i16`, `i32` or `i64`: all `i16` and `i32`, and `i64` up to 2^62 - 1 away from 0. Edges are split by
//! snap rounding, which moves each at most 1/2 in x and in y, and answers every input.
//!
//! Each query comes twice: with its name and signature in `i_overlay`, and with `try_` before the name, as a `Result`.
//! The former panics where the latter is refused: where memory is, where a coordinate is out of range, where there are
//! 2^31 edges or more, and where an option is not had ([`OverlayError`](error::OverlayError)). No `try_` call panics.
//!
//! Floats are taken on a [`grid`](float::grid::Grid) that tells its step.
#![no_std]

#[doc(hidden)]
pub extern crate alloc;

pub mod core;
mod engine;
pub mod error;
mod ffi;
pub mod float;
pub mod i_float;
pub mod i_shape;
pub mod prepared;
pub mod segm;
pub mod string;
pub mod vector;

/// Of which module the library is made: `"proved"` or `"unproved"`.
///
/// ```
/// assert!(["proved", "unproved"].contains(&polyover::built()));
/// ```
pub fn built() -> &'static str {
    if ffi::is_proved() {
        "proved"
    } else {
        "unproved"
    }
}
