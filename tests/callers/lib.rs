//! Tests of the proved callers of the library, on worked rows.

mod closed_walks;
mod places;
mod roads;
mod touching_holes;
