//! Floats, on a grid of whole numbers.
//!
//! Where nothing else is asked for, the grid is the finest of 61 bits on which all points can be had, and its step is a
//! power of two ([`Grid::finest`](grid::Grid::finest)). The whole loss is then:
//!
//! - A coordinate is taken as the nearest multiple of the step: at most half a step from where it is. A multiple is
//!   taken just as it is: so are all `f64` down to 1/256 of the greatest one's size, and all `f32` down to 2^-37.
//! - Splitting moves an edge at most half a step more, in x and in y.
//! - A whole coordinate is given back as the nearest float: just it, where it has 53 bits or fewer (24 for `f32`).
//!
//! No step is guessed in silence: [`Grid::step`](grid::Grid::step) and the builders tell it. A fixed scale is asked for
//! by [`scale`] or [`Grid::with_scale`](grid::Grid::with_scale). NaN and infinity are refused
//! ([`NotFinite`](crate::error::OverlayError::NotFinite)), and so are coordinates above 2^1022 (`f32`: 2^126).

pub mod clip;
pub mod graph;
pub mod grid;
pub mod overlay;
pub mod relate;
pub mod scale;
pub mod simplify;
pub mod single;
pub mod slice;
pub mod string;
