//! Tests of `overlay_vector`: edges with data.

mod added;
mod balance;
mod colour;
mod counted;
mod edges;
mod rows;
mod shapes;
mod snapped_graphs;
mod snapped_stores;
mod solvers;
mod sources;
mod stores;
mod traced;
mod trees;
mod vectors;
