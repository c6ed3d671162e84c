//! Overlays, simplifying, relations, and location of points.

pub mod answer;
pub(crate) mod contours;
pub mod edge_data;
pub mod edge_overlay;
pub mod exact;
pub mod extract;
pub mod fill_rule;
pub mod graph;
pub mod hierarchy;
pub mod integer;
pub mod overlay;
pub mod overlay_rule;
pub mod point_location;
pub mod relate;
pub(crate) mod relations;
pub mod simplify;
pub mod single;
pub mod solver;
