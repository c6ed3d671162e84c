//! Numbers, points and vectors, under the paths of the crate `i_float`.

pub use crate::int_pnt;

pub mod float;
pub mod int;

/// The point of two whole numbers.
///
/// ```
/// use polyover::int_pnt;
/// assert_eq!(int_pnt!(1, 2).x, 1);
/// ```
#[macro_export]
macro_rules! int_pnt {
    ($x:expr, $y:expr) => {
        $crate::i_float::int::point::IntPoint::new($x, $y)
    };
}
