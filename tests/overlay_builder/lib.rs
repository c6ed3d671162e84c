//! Tests of `overlay_builder`: builders.

mod builder;
