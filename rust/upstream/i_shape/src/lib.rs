//! The crate `i_shape`, as far as the tests of `i_overlay` take it: the paths of `polyover`, and whether a contour
//! contains a point.

pub use polyover::i_shape::{flat, int_shape, source};

pub mod int {
    pub use polyover::i_shape::int::{area, shape};

    pub mod path {
        use polyover::i_float::int::point::IntPoint;
        pub use polyover::i_shape::int::path::*;

        pub trait ContourExtension {
            fn contains_point(&self, point: IntPoint<i32>) -> bool;
        }

        impl ContourExtension for [IntPoint<i32>] {
            fn contains_point(&self, p: IntPoint<i32>) -> bool {
                let d = |p: i32, q: i32| i64::from(p) - i64::from(q);
                let mut is_inside = false;
                let mut b = *self.last().unwrap();
                for &a in self {
                    if (a.y > p.y) != (b.y > p.y) {
                        let (low, high) = if a.y < b.y { (a, b) } else { (b, a) };
                        is_inside ^= d(high.x, low.x) * d(p.y, low.y) > d(high.y, low.y) * d(p.x, low.x);
                    }
                    b = a;
                }
                is_inside
            }
        }
    }
}
