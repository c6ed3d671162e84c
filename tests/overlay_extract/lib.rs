//! Tests of `overlay_extract`: the contours of a region, and a shape sliced along strings.

mod by_scan;
mod simplified;
mod slice_bound;
mod slice_rows;
