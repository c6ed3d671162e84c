//! All tests of the crate, as one program.
#![allow(missing_docs)]
#![allow(
    clippy::unwrap_used,
    clippy::arithmetic_side_effects,
    clippy::as_conversions,
    clippy::indexing_slicing
)]

mod builders;
mod common;
mod edges;
mod exact;
mod floats;
mod lists;
mod located;
mod threads;
mod traced;
mod widths;
