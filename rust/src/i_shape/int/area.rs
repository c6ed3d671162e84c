//! Areas.

use crate::i_float::int::number::int::IntNumber;
use crate::i_float::int::point::IntPoint;
use crate::i_shape::source::int::resource::IntShapeResource;

/// What has an area.
pub trait Area<I: IntNumber> {
    /// The area, of contours above 0 where they run counterclockwise; half units are cut off.
    ///
    /// It is exact for coordinates in the range. It stops at the ends of its type, which a square of all `i16` or `i32`
    /// reaches.
    fn area(&self) -> I::Wide;
}

/// Twice the area of a contour. Partial sums may pass the type, but their end does not.
fn doubled<I: IntNumber>(path: &[IntPoint<I>]) -> i128 {
    let (Some(&first), Some(&last)) = (path.first(), path.last()) else {
        return 0;
    };
    let mut from = last;
    let mut sum: i128 = 0;
    for &to in path {
        let x = |it: IntPoint<I>| it.x.wide_difference(first.x);
        let y = |it: IntPoint<I>| it.y.wide_difference(first.y);
        let cross = x(from).wrapping_mul(y(to)).wrapping_sub(y(from).wrapping_mul(x(to)));
        sum = sum.wrapping_add(cross);
        from = to;
    }
    sum
}

impl<I: IntNumber, R: IntShapeResource<I> + ?Sized> Area<I> for R {
    fn area(&self) -> I::Wide {
        let all = self.iter_paths().map(doubled);
        I::wide_of(all.fold(0, i128::wrapping_add).wrapping_div(2))
    }
}
