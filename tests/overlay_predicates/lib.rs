//! Tests of `overlay_predicates`: relations of contours as they were added.

mod asked;
mod built;
mod ends;
mod fractions;
mod refused;
mod rows;
