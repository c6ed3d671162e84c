//! Tests of `overlay_located`: where points lie in contours as they are given.

mod asked;
mod contours;
mod many;
mod range;
mod refused;
mod rows;
mod together;
