//! Tests of `overlay_pairs`: the later edges that an edge may meet.

mod fans;
