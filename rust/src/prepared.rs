//! Shapes that are asked again and again where points lie.

use crate::core::fill_rule::FillRule;
use crate::core::integer::OverlayInt;
use crate::core::point_location::PointLocation;
use crate::core::solver::Solver;
use crate::engine::lists::{listed, turned};
use crate::engine::paths::Paths;
use crate::engine::width::Query;
use crate::error::OverlayError;
use crate::ffi::{coordinates_of, sys, Engine, Given, Narrow, Prepared, Raw, Wide};
use crate::i_float::int::point::IntPoint;
use crate::i_shape::source::int::resource::IntShapeResource;
use ::core::fmt;
use ::core::iter::repeat;
use ::core::marker::PhantomData;
use alloc::vec::Vec;

struct Preparing(FillRule, Solver);

impl Query for Preparing {
    type Answer = Prepared<sys::Prepared>;

    fn ask<E: Engine>(&self, first: Given<'_, E::C>, _: Given<'_, E::C>) -> Result<Self::Answer, OverlayError> {
        E::prepare(self.0, self.1, first)
    }
}

struct PreparingExactly(FillRule);

impl Query for PreparingExactly {
    type Answer = Prepared<sys::Exact>;

    fn ask<E: Engine>(&self, first: Given<'_, E::C>, _: Given<'_, E::C>) -> Result<Self::Answer, OverlayError> {
        E::prepare_exact(self.0, first)
    }
}

/// Where each point lies in such a shape.
fn located<I: OverlayInt, S: Raw<Narrow> + Raw<Wide>>(
    shape: &Prepared<S>,
    points: &[IntPoint<I>],
) -> Result<Vec<PointLocation>, OverlayError> {
    let mut numbers = listed(points.len(), repeat(0))?;
    I::ask_prepared(shape, coordinates_of(points), &mut numbers)?;
    turned(&numbers, PointLocation::of)
}

/// A shape as it is given, that is asked again and again where points lie. Nothing is rounded: a point lies inside
/// where all points near it off the contours are filled, outside where none is, and else on the boundary. Several
/// threads may ask it at once.
///
/// ```
/// use polyover::core::{fill_rule::FillRule, point_location::PointLocation};
/// use polyover::{i_float::int::point::IntPoint, prepared::ExactShape};
///
/// // (they cross in (1, 1/3), above (1, 0))
/// let contours = [[[0, 0], [3, 1], [0, 3]], [[0, 1], [3, -1], [3, 1]]].map(|it| it.map(IntPoint::from).to_vec());
/// let shape = ExactShape::new(&contours[..], FillRule::NonZero)?;
/// assert_eq!(shape.try_locate(&[IntPoint::new(1, 0)])?, [PointLocation::Outside]);
/// # Ok::<(), polyover::error::OverlayError>(())
/// ```
pub struct ExactShape<I: OverlayInt> {
    shape: Prepared<sys::Exact>,
    coordinates: PhantomData<fn(I)>,
}

impl<I: OverlayInt> ExactShape<I> {
    /// Prepares the shape of the contours under the fill rule. They may cross.
    ///
    /// # Errors
    /// `Memory`; `OutOfRange`, of `i64` alone; `TooManyEdges`.
    pub fn new<R: IntShapeResource<I> + ?Sized>(shape: &R, fill_rule: FillRule) -> Result<Self, OverlayError> {
        let paths = Paths::of(shape)?;
        let shape = I::ask(&PreparingExactly(fill_rule), paths.as_given(), Given::NONE)?;
        let coordinates = PhantomData;
        Ok(Self { shape, coordinates })
    }

    /// Where each point lies.
    ///
    /// # Errors
    /// `Memory`; `OutOfRange`, of `i64` alone.
    pub fn try_locate(&self, points: &[IntPoint<I>]) -> Result<Vec<PointLocation>, OverlayError> {
        located(&self.shape, points)
    }
}

impl<I: OverlayInt> fmt::Debug for ExactShape<I> {
    fn fmt(&self, f: &mut fmt::Formatter<'_>) -> fmt::Result {
        f.debug_struct("ExactShape").finish_non_exhaustive()
    }
}

/// A shape of an arrangement, that is asked again and again where points lie. Several threads may ask it at once.
///
/// ```
/// use polyover::core::{fill_rule::FillRule, point_location::PointLocation, solver::Solver};
/// use polyover::{i_float::int::point::IntPoint, prepared::PreparedShape};
///
/// let contour = [[0, 0], [10, 0], [10, 10], [0, 10]].map(IntPoint::from);
/// let shape = PreparedShape::new(&contour, FillRule::NonZero, Solver::default())?;
/// assert_eq!(shape.try_locate(&[IntPoint::new(10, 5)])?, [PointLocation::Boundary]);
/// # Ok::<(), polyover::error::OverlayError>(())
/// ```
pub struct PreparedShape<I: OverlayInt> {
    shape: Prepared<sys::Prepared>,
    coordinates: PhantomData<fn(I)>,
}

impl<I: OverlayInt> PreparedShape<I> {
    /// Prepares the shape that the contours make under the fill rule. They may cross, and are split by the solver then:
    /// [`ExactShape`] rounds nothing.
    ///
    /// # Errors
    /// `Memory`; `OutOfRange`, of `i64` alone; `TooManyEdges`; `NotSettled`, of `Solver::ROUNDS` alone.
    pub fn new<R: IntShapeResource<I> + ?Sized>(
        shape: &R,
        fill_rule: FillRule,
        solver: Solver,
    ) -> Result<Self, OverlayError> {
        let paths = Paths::of(shape)?;
        let shape = I::ask(&Preparing(fill_rule, solver), paths.as_given(), Given::NONE)?;
        let coordinates = PhantomData;
        Ok(Self { shape, coordinates })
    }

    /// Where each point lies.
    ///
    /// # Errors
    /// `Memory`; `OutOfRange`, of `i64` alone.
    pub fn try_locate(&self, points: &[IntPoint<I>]) -> Result<Vec<PointLocation>, OverlayError> {
        located(&self.shape, points)
    }
}

impl<I: OverlayInt> fmt::Debug for PreparedShape<I> {
    fn fmt(&self, f: &mut fmt::Formatter<'_>) -> fmt::Result {
        f.debug_struct("PreparedShape").finish_non_exhaustive()
    }
}
