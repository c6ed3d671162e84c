//! Tests of `overlay_arrange`: edges that are merged, cut and filled.

mod bundles;
mod copies;
mod cut;
mod edges;
mod fills;
mod graph;
mod hub;
mod nested;
mod rounds;
mod snapping;
mod tallies;
mod truncated;
