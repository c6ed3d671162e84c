//! Where paths come from.

/// Of whole points.
pub mod int {
    /// What has paths.
    pub mod resource {
        use crate::i_float::int::number::int::IntNumber;
        use crate::i_float::int::point::IntPoint;
        use crate::i_shape::flat::buffer::{FlatContoursBuffer, FlatShapesBuffer};
        use ::core::iter::once;
        use alloc::vec::Vec;

        /// What has paths: a contour, a shape, shapes, a flat buffer.
        pub trait IntShapeResource<I: IntNumber> {
            /// Its paths.
            fn iter_paths(&self) -> impl Iterator<Item = &[IntPoint<I>]>;
        }

        impl<I: IntNumber> IntShapeResource<I> for [IntPoint<I>] {
            fn iter_paths(&self) -> impl Iterator<Item = &[IntPoint<I>]> {
                once(self)
            }
        }

        impl<I: IntNumber> IntShapeResource<I> for [Vec<IntPoint<I>>] {
            fn iter_paths(&self) -> impl Iterator<Item = &[IntPoint<I>]> {
                self.iter().map(Vec::as_slice)
            }
        }

        impl<I: IntNumber> IntShapeResource<I> for [Vec<Vec<IntPoint<I>>>] {
            fn iter_paths(&self) -> impl Iterator<Item = &[IntPoint<I>]> {
                self.iter().flatten().map(Vec::as_slice)
            }
        }

        impl<I: IntNumber, const N: usize> IntShapeResource<I> for [[IntPoint<I>; N]] {
            fn iter_paths(&self) -> impl Iterator<Item = &[IntPoint<I>]> {
                self.iter().map(<[_; N]>::as_slice)
            }
        }

        impl<I: IntNumber> IntShapeResource<I> for [&[IntPoint<I>]] {
            fn iter_paths(&self) -> impl Iterator<Item = &[IntPoint<I>]> {
                self.iter().copied()
            }
        }

        impl<I: IntNumber, T> IntShapeResource<I> for Vec<T>
        where
            [T]: IntShapeResource<I>,
        {
            fn iter_paths(&self) -> impl Iterator<Item = &[IntPoint<I>]> {
                self.as_slice().iter_paths()
            }
        }

        impl<I: IntNumber, T, const N: usize> IntShapeResource<I> for [T; N]
        where
            [T]: IntShapeResource<I>,
        {
            fn iter_paths(&self) -> impl Iterator<Item = &[IntPoint<I>]> {
                self.as_slice().iter_paths()
            }
        }

        impl<I: IntNumber> IntShapeResource<I> for FlatContoursBuffer<I> {
            fn iter_paths(&self) -> impl Iterator<Item = &[IntPoint<I>]> {
                let path = |it: &::core::ops::Range<usize>| self.points.get(it.clone()).unwrap_or_default();
                self.ranges.iter().map(path)
            }
        }

        impl<I: IntNumber> IntShapeResource<I> for FlatShapesBuffer<I> {
            fn iter_paths(&self) -> impl Iterator<Item = &[IntPoint<I>]> {
                let path = |it: &::core::ops::Range<usize>| self.points.get(it.clone()).unwrap_or_default();
                self.contour_ranges.iter().map(path)
            }
        }

        impl<I: IntNumber, R: IntShapeResource<I> + ?Sized> IntShapeResource<I> for &R {
            fn iter_paths(&self) -> impl Iterator<Item = &[IntPoint<I>]> {
                (**self).iter_paths()
            }
        }
    }
}

/// Of points of floats.
pub mod resource {
    use crate::i_float::float::compatible::FloatPointCompatible;
    use ::core::iter::once;
    use alloc::vec::Vec;

    /// What has paths: a contour, a shape, shapes.
    pub trait ShapeResource<P: FloatPointCompatible> {
        /// Its paths.
        fn iter_paths<'a>(&'a self) -> impl Iterator<Item = &'a [P]>
        where
            P: 'a;
    }

    impl<P: FloatPointCompatible> ShapeResource<P> for [P] {
        fn iter_paths<'a>(&'a self) -> impl Iterator<Item = &'a [P]>
        where
            P: 'a,
        {
            once(self)
        }
    }

    impl<P: FloatPointCompatible> ShapeResource<P> for [Vec<P>] {
        fn iter_paths<'a>(&'a self) -> impl Iterator<Item = &'a [P]>
        where
            P: 'a,
        {
            self.iter().map(Vec::as_slice)
        }
    }

    impl<P: FloatPointCompatible> ShapeResource<P> for [Vec<Vec<P>>] {
        fn iter_paths<'a>(&'a self) -> impl Iterator<Item = &'a [P]>
        where
            P: 'a,
        {
            self.iter().flatten().map(Vec::as_slice)
        }
    }

    impl<P: FloatPointCompatible> ShapeResource<P> for [&[P]] {
        fn iter_paths<'a>(&'a self) -> impl Iterator<Item = &'a [P]>
        where
            P: 'a,
        {
            self.iter().copied()
        }
    }

    impl<P: FloatPointCompatible, T> ShapeResource<P> for Vec<T>
    where
        [T]: ShapeResource<P>,
    {
        fn iter_paths<'a>(&'a self) -> impl Iterator<Item = &'a [P]>
        where
            P: 'a,
        {
            self.as_slice().iter_paths()
        }
    }

    impl<P: FloatPointCompatible, T, const N: usize> ShapeResource<P> for [T; N]
    where
        [T]: ShapeResource<P>,
    {
        fn iter_paths<'a>(&'a self) -> impl Iterator<Item = &'a [P]>
        where
            P: 'a,
        {
            self.as_slice().iter_paths()
        }
    }
}
