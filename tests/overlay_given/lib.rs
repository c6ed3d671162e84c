//! Tests of `overlay_given`: relations of contours as given.

mod asked;
mod contacts;
mod interiors;
mod kinds;
