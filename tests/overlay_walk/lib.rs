//! Tests of `overlay_walk`: walks along the steps of an arrangement.

mod bound;
mod counted;
mod fans;
mod groups;
mod kept;
mod no_steps;
mod points;
mod rays;
mod triangle;
