//! Types of coordinates, and the width at which the library computes with each.

use crate::engine::lists::turned;
use crate::error::OverlayError;
use crate::ffi::{Engine, Given, Narrow, Prepared, Raw, Ready, Wide};
use crate::i_float::int::number::int::IntNumber;

/// A question about two lists of paths, at whichever width.
pub(crate) trait Query {
    /// Its answer.
    type Answer;

    /// Asks the library.
    fn ask<E: Engine>(&self, first: Given<'_, E::C>, second: Given<'_, E::C>) -> Result<Self::Answer, OverlayError>;
}

/// How the library computes with a type of coordinates. No other crate can implement it.
#[allow(private_bounds, private_interfaces)]
pub trait Native: IntNumber {
    /// How many bits a coordinate of a grid of floats has.
    #[doc(hidden)]
    const GRID_BITS: i32;
    /// A coordinate of an answer, which is one of this type.
    #[doc(hidden)]
    fn of_wide(wide: i64) -> Self;
    /// The same number in 64 bits.
    #[doc(hidden)]
    fn wide(self) -> i64;
    /// Asks at the width of this type.
    #[doc(hidden)]
    fn ask<Q: Query>(query: &Q, first: Given<'_, Self>, second: Given<'_, Self>) -> Result<Q::Answer, OverlayError>;
    /// Writes where points lie in a prepared shape.
    #[doc(hidden)]
    fn ask_prepared<S: Raw<Narrow> + Raw<Wide>>(
        shape: &Prepared<S>,
        points: &[Self],
        locations: &mut [u8],
    ) -> Result<(), OverlayError>;
}

/// Asks with coordinates in another type.
fn ask_turned<Q: Query, E: Engine, I: IntNumber + Into<E::C>>(
    query: &Q,
    first: Given<'_, I>,
    second: Given<'_, I>,
) -> Result<Q::Answer, OverlayError> {
    let one = turned(first.coordinates, Into::into)?;
    let other = turned(second.coordinates, Into::into)?;
    let given = |coordinates, ends| Given { coordinates, ends };
    query.ask::<E>(given(&one, first.ends), given(&other, second.ends))
}

/// Asks a shape at 32 bits for points of any coordinates: those out of its range lie outside.
fn ask_narrow<C: Copy + TryInto<i32>, S: Raw<Narrow>>(
    shape: &Ready<Narrow, S>,
    points: &[C],
    locations: &mut [u8],
) -> Result<(), OverlayError> {
    for (point, location) in points.chunks_exact(2).zip(locations.chunks_exact_mut(1)) {
        let &[x, y] = point else { continue };
        let told = match (x.try_into(), y.try_into()) {
            (Ok(x), Ok(y)) => shape.ask(&[x, y], location),
            _ => Err(OverlayError::OutOfRange),
        };
        match told {
            Err(OverlayError::OutOfRange) => location.fill(0),
            told => told?,
        }
    }
    Ok(())
}

#[allow(private_bounds, private_interfaces)]
impl Native for i64 {
    const GRID_BITS: i32 = 61;

    fn of_wide(wide: i64) -> Self {
        wide
    }

    fn wide(self) -> i64 {
        self
    }

    fn ask<Q: Query>(query: &Q, first: Given<'_, Self>, second: Given<'_, Self>) -> Result<Q::Answer, OverlayError> {
        query.ask::<Wide>(first, second)
    }

    fn ask_prepared<S: Raw<Narrow> + Raw<Wide>>(
        shape: &Prepared<S>,
        points: &[Self],
        locations: &mut [u8],
    ) -> Result<(), OverlayError> {
        match shape {
            Prepared::Wide(shape) => shape.ask(points, locations),
            Prepared::Narrow(shape) => ask_narrow(shape, points, locations),
        }
    }
}

#[allow(private_bounds, private_interfaces)]
impl Native for i32 {
    const GRID_BITS: i32 = 29;

    fn of_wide(wide: i64) -> Self {
        Self::try_from(wide).unwrap_or_default()
    }

    fn wide(self) -> i64 {
        self.into()
    }

    fn ask<Q: Query>(query: &Q, first: Given<'_, Self>, second: Given<'_, Self>) -> Result<Q::Answer, OverlayError> {
        match query.ask::<Narrow>(first, second) {
            // (the calls at 32 bits take coordinates up to 2^30 - 1; all of this type are in the range at 64 bits)
            Err(OverlayError::OutOfRange) => ask_turned::<Q, Wide, Self>(query, first, second),
            answer => answer,
        }
    }

    fn ask_prepared<S: Raw<Narrow> + Raw<Wide>>(
        shape: &Prepared<S>,
        points: &[Self],
        locations: &mut [u8],
    ) -> Result<(), OverlayError> {
        match shape {
            Prepared::Narrow(shape) => match shape.ask(points, locations) {
                Err(OverlayError::OutOfRange) => ask_narrow(shape, points, locations),
                answer => answer,
            },
            Prepared::Wide(shape) => shape.ask(&turned(points, i64::from)?, locations),
        }
    }
}

#[allow(private_bounds, private_interfaces)]
impl Native for i16 {
    const GRID_BITS: i32 = 13;

    fn of_wide(wide: i64) -> Self {
        Self::try_from(wide).unwrap_or_default()
    }

    fn wide(self) -> i64 {
        self.into()
    }

    fn ask<Q: Query>(query: &Q, first: Given<'_, Self>, second: Given<'_, Self>) -> Result<Q::Answer, OverlayError> {
        ask_turned::<Q, Narrow, Self>(query, first, second)
    }

    fn ask_prepared<S: Raw<Narrow> + Raw<Wide>>(
        shape: &Prepared<S>,
        points: &[Self],
        locations: &mut [u8],
    ) -> Result<(), OverlayError> {
        match shape {
            Prepared::Narrow(shape) => shape.ask(&turned(points, i32::from)?, locations),
            Prepared::Wide(shape) => shape.ask(&turned(points, i64::from)?, locations),
        }
    }
}
