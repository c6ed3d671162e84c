//! Tests of `polyover_engine`: worked inputs with what is written for them, and readers and writers that fail.

mod bad_input;
mod clips;
mod edges;
mod faults;
mod growths;
mod hierarchies;
mod large;
mod overlays;
mod points;
mod relations;
mod runs;
mod slices;
mod tiles;
