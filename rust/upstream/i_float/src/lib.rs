//! The crate `i_float`, as far as the tests of `i_overlay` take it: the paths of `polyover`, and a test of triangles.

pub use polyover::i_float::*;

pub mod triangle {
    use polyover::i_float::int::point::IntPoint;

    pub struct Triangle;

    impl Triangle {
        pub fn is_line(a: IntPoint<i32>, b: IntPoint<i32>, c: IntPoint<i32>) -> bool {
            let d = |p: i32, q: i32| i64::from(p) - i64::from(q);
            d(b.x, a.x) * d(c.y, a.y) == d(b.y, a.y) * d(c.x, a.x)
        }
    }
}
