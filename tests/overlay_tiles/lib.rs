//! Tests of `overlay_tiles`: grids, and shapes sliced by them.

mod fits;
mod points;
mod solvers;
mod tiles;
