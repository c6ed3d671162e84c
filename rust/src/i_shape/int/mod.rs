//! Shapes of whole points.

pub mod area;

/// Paths.
pub mod path {
    use crate::i_float::int::point::IntPoint;
    use alloc::vec::Vec;

    /// An open path.
    pub type IntPath<I = i32> = Vec<IntPoint<I>>;
}

/// Contours and shapes.
pub mod shape {
    use crate::i_float::int::point::IntPoint;
    use alloc::vec::Vec;

    /// A closed path.
    pub type IntContour<I = i32> = Vec<IntPoint<I>>;
    /// An outline, and then its holes.
    pub type IntShape<I = i32> = Vec<IntContour<I>>;
    /// Shapes.
    pub type IntShapes<I = i32> = Vec<IntShape<I>>;
}
