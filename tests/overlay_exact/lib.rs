//! Tests of `overlay_exact`: fractions, parts of edges, meeting points in order and in groups, and windings.

mod along;
mod fractions;
mod meetings;
mod parts;
mod point_windings;
mod winding;
