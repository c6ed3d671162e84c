//! Tests of `overlay_traced`: edges of arrangements, with the given edges that they come from.

mod coincident;
