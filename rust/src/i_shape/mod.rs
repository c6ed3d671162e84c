//! Paths, shapes and flat buffers, under the paths of the crate `i_shape`.

pub use crate::int_shape;

pub mod base;
pub mod flat;
pub mod int;
pub mod source;

#[doc(hidden)]
pub use alloc::vec as __vec;

/// Contours of literal points.
///
/// ```
/// use polyover::int_shape;
/// let shape = int_shape![[[0, 0], [4, 0], [4, 4]], [[1, 1], [2, 2], [2, 1]]];
/// assert_eq!(shape[1].len(), 3);
/// ```
#[macro_export]
macro_rules! int_shape {
    ($([$([$x:expr, $y:expr]),* $(,)?]),* $(,)?) => {
        $crate::i_shape::__vec![
            $($crate::i_shape::__vec![$($crate::i_float::int::point::IntPoint::new($x, $y)),*]),*
        ]
    };
}
