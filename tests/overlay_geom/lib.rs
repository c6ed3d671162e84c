//! Tests of `overlay_geom`: numbers, points, paths, resources, and points that are left out.

mod coordinate;
mod error;
mod flat;
mod path;
mod point;
mod resource;
mod thin;
mod unsigned;
mod vector;
mod wide;
