//! Shapes of points of any type.

/// Lists of points.
pub mod data {
    use alloc::vec::Vec;

    /// An open path.
    pub type Path<P> = Vec<P>;
    /// Open paths.
    pub type Paths<P> = Vec<Path<P>>;
    /// A closed path.
    pub type Contour<P> = Vec<P>;
    /// An outline, and then its holes.
    pub type Shape<P> = Vec<Contour<P>>;
    /// Shapes.
    pub type Shapes<P> = Vec<Shape<P>>;
}
