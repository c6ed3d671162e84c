//! Tests of `overlay_string`: strings over a shape.

mod built;
mod clip;
mod clip_calls;
mod points;
mod rules;
mod slice;
mod solvers;
mod trees;
mod views;
