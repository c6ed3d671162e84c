//! Points from small coordinates.

use overlay_geom::number::IntNumber;
use overlay_geom::point::IntPoint;

/// A point by its coordinates, small enough for each coordinate type.
pub(crate) type Place = (i16, i16);

/// The point with these coordinates.
pub(crate) fn point_of<I: IntNumber + From<i16>>(place: Place) -> IntPoint<I> {
    IntPoint::new(I::from(place.0), I::from(place.1))
}
