//! Tests of `overlay_order`: what edges carry, and sorts.

mod data;
mod numbers;
mod pairs;
mod points;
mod string_count;
