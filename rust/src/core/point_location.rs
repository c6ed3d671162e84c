//! Where points lie.

use crate::core::integer::OverlayInt;
use crate::engine::lists::{listed, turned};
use crate::engine::paths::Paths;
use crate::engine::width::Query;
use crate::error::{answered, OverlayError};
use crate::ffi::{coordinates_of, Engine, Given};
use crate::i_float::int::point::IntPoint;
use crate::i_shape::int::shape::{IntContour, IntShape};
use crate::i_shape::source::int::resource::IntShapeResource;
use ::core::iter::repeat;
use alloc::vec::Vec;

/// Where a point lies.
#[derive(Debug, Clone, Copy, PartialEq, Eq, Hash)]
pub enum PointLocation {
    /// On no edge, and outside.
    Outside,
    /// On no edge, and inside.
    Inside,
    /// On an edge, an end included.
    Boundary,
}

impl PointLocation {
    /// That for which a number of the library stands.
    pub(crate) fn of(number: u8) -> Self {
        match number {
            1 => Self::Inside,
            2 => Self::Boundary,
            _ => Self::Outside,
        }
    }
}

struct Located;

impl Query for Located {
    type Answer = Vec<u8>;

    fn ask<E: Engine>(&self, first: Given<'_, E::C>, second: Given<'_, E::C>) -> Result<Vec<u8>, OverlayError> {
        let mut locations = listed(second.coordinates.len() / 2, repeat(0))?;
        E::locate(first, second.coordinates, &mut locations)?;
        Ok(locations)
    }
}

/// Where points lie in contours that are one shape.
fn located<I: OverlayInt, R: IntShapeResource<I> + ?Sized>(
    shape: &R,
    points: &[IntPoint<I>],
) -> Result<Vec<PointLocation>, OverlayError> {
    let ends = [points.len()];
    let asked = Given {
        coordinates: coordinates_of(points),
        ends: &ends,
    };
    let numbers = I::ask(&Located, Paths::of(shape)?.as_given(), asked)?;
    turned(&numbers, PointLocation::of)
}

/// Where points lie, in one call: in a contour, in contours that are one shape, or in any of several shapes.
///
/// Contours are resolved: none meets itself elsewhere than in its corners, as those of answers. For others there is
/// [`ExactShape`](crate::prepared::ExactShape).
///
/// ```
/// use polyover::core::point_location::{IntPointContainment, PointLocation};
/// use polyover::i_float::int::point::IntPoint;
///
/// let contour = [[0, 0], [10, 0], [10, 10], [0, 10]].map(IntPoint::from);
/// let points = [[5, 5], [20, 5], [10, 5]].map(IntPoint::from);
/// assert_eq!(contour.contains_points(&points), [true, false, false]);
/// assert_eq!(contour.try_locate_points(&points)?[2], PointLocation::Boundary);
/// # Ok::<(), polyover::error::OverlayError>(())
/// ```
pub trait IntPointContainment<I: OverlayInt> {
    /// Where each point lies.
    ///
    /// # Errors
    /// `Memory`; `OutOfRange`, of `i64` alone; `NotResolved`.
    fn try_locate_points(&self, points: &[IntPoint<I>]) -> Result<Vec<PointLocation>, OverlayError>;

    /// Whether each point lies strictly inside.
    ///
    /// # Panics
    /// Where [`Self::try_locate_points`] is refused.
    #[track_caller]
    fn contains_points(&self, points: &[IntPoint<I>]) -> Vec<bool> {
        let locations = answered(self.try_locate_points(points));
        locations.into_iter().map(|it| it == PointLocation::Inside).collect()
    }
}

impl<I: OverlayInt> IntPointContainment<I> for [IntPoint<I>] {
    fn try_locate_points(&self, points: &[IntPoint<I>]) -> Result<Vec<PointLocation>, OverlayError> {
        located(self, points)
    }
}

impl<I: OverlayInt> IntPointContainment<I> for [IntContour<I>] {
    fn try_locate_points(&self, points: &[IntPoint<I>]) -> Result<Vec<PointLocation>, OverlayError> {
        located(self, points)
    }
}

impl<I: OverlayInt> IntPointContainment<I> for [IntShape<I>] {
    fn try_locate_points(&self, points: &[IntPoint<I>]) -> Result<Vec<PointLocation>, OverlayError> {
        let mut all = listed(points.len(), repeat(PointLocation::Outside))?;
        for shape in self {
            for (known, told) in all.iter_mut().zip(located(shape.as_slice(), points)?) {
                match (*known, told) {
                    (PointLocation::Inside, _) | (_, PointLocation::Outside) => {}
                    (_, told) => *known = told,
                }
            }
        }
        Ok(all)
    }
}
