//! 50,000 edges, or 12,500 contours, at each public call; the answers follow from formulas. Built without checks.

mod adders;
mod edges;
mod figures;
mod flat;
mod lines;
mod one_call;
mod overlays;
mod points;
mod relations;
mod revisits;
mod simplified;
mod strings;
mod tiles;
mod views;
