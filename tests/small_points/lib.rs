//! Contours from small coordinates, and graphs of them and of strings, for the tests in other folders.

pub mod contours;
pub mod slice_graphs;
