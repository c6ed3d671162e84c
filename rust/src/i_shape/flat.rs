//! Flat buffers.

/// Flat buffers.
pub mod buffer {
    use crate::i_float::int::number::int::IntNumber;
    use crate::i_float::int::point::IntPoint;
    use crate::i_shape::int::shape::IntShapes;
    use ::core::ops::Range;
    use alloc::vec::Vec;

    /// Contours in one list of points. A range that is not inside the points is read as an empty path.
    #[derive(Debug, Clone, PartialEq, Eq)]
    pub struct FlatContoursBuffer<I: IntNumber = i32> {
        /// All points.
        pub points: Vec<IntPoint<I>>,
        /// Those of each contour.
        pub ranges: Vec<Range<usize>>,
    }

    impl<I: IntNumber> Default for FlatContoursBuffer<I> {
        fn default() -> Self {
            Self {
                points: Vec::new(),
                ranges: Vec::new(),
            }
        }
    }

    impl<I: IntNumber> FlatContoursBuffer<I> {
        /// Whether there is just one contour.
        pub fn is_single_contour(&self) -> bool {
            self.ranges.len() == 1
        }

        /// The first contour; without one it is empty.
        pub fn as_first_contour(&self) -> &[IntPoint<I>] {
            let first = self.ranges.first();
            first.and_then(|it| self.points.get(it.clone())).unwrap_or_default()
        }

        /// The first contour, to be changed.
        pub fn as_first_contour_mut(&mut self) -> &mut [IntPoint<I>] {
            let first = self.ranges.first();
            first.and_then(|it| self.points.get_mut(it.clone())).unwrap_or_default()
        }

        /// Drops all contours, and makes room.
        pub fn clear_and_reserve(&mut self, points: usize, contours: usize) {
            self.points.clear();
            self.ranges.clear();
            self.points.reserve(points);
            self.ranges.reserve(contours);
        }

        /// Adds a contour.
        pub fn add_contour(&mut self, contour: &[IntPoint<I>]) {
            let start = self.points.len();
            self.points.extend_from_slice(contour);
            self.ranges.push(start..self.points.len());
        }

        /// Makes it one contour.
        pub fn set_with_contour(&mut self, contour: &[IntPoint<I>]) {
            self.clear_and_reserve(contour.len(), 1);
            self.add_contour(contour);
        }
    }

    /// Shapes in one list of points. A range that is not inside its list is read as empty.
    #[derive(Debug, Clone, PartialEq, Eq)]
    pub struct FlatShapesBuffer<I: IntNumber = i32> {
        /// All points.
        pub points: Vec<IntPoint<I>>,
        /// Those of each contour.
        pub contour_ranges: Vec<Range<usize>>,
        /// The contours of each shape.
        pub shape_ranges: Vec<Range<usize>>,
    }

    impl<I: IntNumber> Default for FlatShapesBuffer<I> {
        fn default() -> Self {
            Self::with_capacity(0, 0, 0)
        }
    }

    impl<I: IntNumber> FlatShapesBuffer<I> {
        /// One with room.
        pub fn with_capacity(points: usize, contours: usize, shapes: usize) -> Self {
            Self {
                points: Vec::with_capacity(points),
                contour_ranges: Vec::with_capacity(contours),
                shape_ranges: Vec::with_capacity(shapes),
            }
        }

        /// The shapes, each in lists of its own.
        pub fn to_shapes(&self) -> IntShapes<I> {
            let path = |it: &Range<usize>| self.points.get(it.clone()).unwrap_or_default().to_vec();
            let shape = |it: &Range<usize>| self.contour_ranges.get(it.clone()).unwrap_or_default();
            let shapes = self.shape_ranges.iter().map(shape);
            shapes.map(|it| it.iter().map(path).collect()).collect()
        }
    }
}
