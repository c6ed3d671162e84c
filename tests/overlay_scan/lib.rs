//! Tests of `overlay_scan`: sweeps that keep their live edges in a list, in a tree, or in a list that turns into
//! a tree.

mod held;
mod levels;
mod list;
mod many;
mod orders;
mod turning;
