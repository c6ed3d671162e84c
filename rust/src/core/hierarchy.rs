//! Which shapes lie in which holes.

use crate::core::integer::OverlayInt;
use crate::i_shape::flat::buffer::FlatShapesBuffer;
use alloc::vec::Vec;

/// A shape that lies in a hole of another one.
#[derive(Debug, Clone, Copy, PartialEq, Eq, PartialOrd, Ord, Hash)]
pub struct ChildLink {
    /// The shape to which the hole belongs.
    pub parent_shape_index: usize,
    /// The hole: its place among the contours of all shapes.
    pub parent_contour_index: usize,
    /// The shape that lies in it.
    pub child_shape_index: usize,
}

/// Shapes, and which of them lie in which holes.
#[derive(Debug, Clone, PartialEq, Eq)]
pub struct FlatShapeHierarchy<I: OverlayInt> {
    /// The shapes.
    pub shapes: FlatShapesBuffer<I>,
    /// A link for each shape that lies in a hole.
    pub links: Vec<ChildLink>,
}

impl<I: OverlayInt> Default for FlatShapeHierarchy<I> {
    fn default() -> Self {
        Self {
            shapes: FlatShapesBuffer::default(),
            links: Vec::new(),
        }
    }
}
