//! The grid on which floats are taken.

use crate::core::integer::OverlayInt;
use crate::engine::lists::with_room;
use crate::engine::paths::Paths;
use crate::error::OverlayError;
use crate::float::scale::FixedScaleOverlayError;
use crate::i_float::float::compatible::FloatPointCompatible;
use crate::i_float::float::number::FloatNumber;
use crate::i_float::int::point::IntPoint;
use crate::i_shape::base::data::{Contour, Shapes};
use crate::i_shape::int::shape::IntShapes;
use crate::i_shape::source::resource::ShapeResource;
use ::core::marker::PhantomData;
use alloc::vec::Vec;

/// How whole coordinates are made of floats.
#[derive(Debug, Clone, Copy, PartialEq)]
enum Step {
    /// A step of 2 to this power, from -1022 to 1022: nothing is rounded but to a whole number.
    Power(i32),
    /// So many steps in one unit.
    Scale(f64),
}

/// A grid of coordinates of a type: of 61 bits with `i64`, of 29 with `i32`, of 13 with `i16`, and a sign.
///
/// ```
/// use polyover::float::grid::Grid;
///
/// let points = [[0.0, 0.0], [3.0, 0.5]];
/// // (3 is below 2^2, so 2^61 steps of 2^-59 reach it)
/// assert_eq!(Grid::<i64>::finest(&points, &points)?.step(), 1.0 / (1_u64 << 59) as f64);
/// assert_eq!(Grid::<i32>::finest(&points, &points)?.step(), 1.0 / (1_u64 << 27) as f64);
/// assert_eq!(Grid::<i64>::with_scale(1000.0)?.step(), 0.001);
/// # Ok::<(), Box<dyn std::error::Error>>(())
/// ```
#[derive(Debug, Clone, Copy, PartialEq)]
pub struct Grid<I: OverlayInt> {
    step: Step,
    coordinates: PhantomData<fn(I)>,
}

/// The bits of a float behind its exponent.
const FRACTION: u32 = 52;
/// The exponents of steps, of which each power and its reciprocal is a normal float.
const EXPONENTS: ::core::ops::RangeInclusive<i32> = -1022..=1022;

/// 2 to a power from -1022 to 1023.
fn power(exponent: i32) -> f64 {
    let biased = u64::try_from(exponent.saturating_add(1023)).unwrap_or(0);
    f64::from_bits(biased << FRACTION)
}

/// The whole number nearest to a float; of two the even one.
fn nearest(value: f64) -> f64 {
    // (from 2^52 on all floats are whole)
    let whole_from = power(52);
    if value.abs() >= whole_from {
        return value;
    }
    let away = (value.abs() + whole_from) - whole_from;
    if value.is_sign_negative() {
        -away
    } else {
        away
    }
}

/// A whole float below 2^62 as a whole number, which it is just.
#[allow(clippy::as_conversions)]
fn whole_of(value: f64) -> i64 {
    value as i64
}

/// The float nearest to a whole number.
#[allow(clippy::as_conversions)]
fn float_of(whole: i64) -> f64 {
    whole as f64
}

/// The whole number nearest to an area, which is not negative, or the greatest one; of two the smaller, so that a
/// contour of just this area, which counts rounded down, stays.
#[allow(clippy::as_conversions, clippy::float_cmp)]
fn area_of(value: f64) -> u128 {
    let near = nearest(value);
    let smaller = if near - value == 0.5 { near - 1.0 } else { near };
    smaller as u128
}

impl<I: OverlayInt> Grid<I> {
    const fn of(step: Step) -> Self {
        let coordinates = PhantomData;
        Self { step, coordinates }
    }

    /// The grid of step 2 to the exponent, from -1022 to 1022; none for others.
    pub fn new(exponent: i32) -> Option<Self> {
        EXPONENTS.contains(&exponent).then_some(Self::of(Step::Power(exponent)))
    }

    /// The grid of so many steps in one unit. Coordinates are multiplied by the scale, which rounds them once more, and
    /// divided by it.
    ///
    /// # Errors
    /// Where the scale is not finite, not above 0, or has no finite reciprocal.
    pub fn with_scale<T: FloatNumber>(scale: T) -> Result<Self, FixedScaleOverlayError> {
        let scale = scale.to_f64();
        if !scale.is_finite() {
            return Err(FixedScaleOverlayError::ScaleNonFinite);
        }
        if scale <= 0.0 {
            return Err(FixedScaleOverlayError::ScaleNonPositive);
        }
        if scale.recip() > T::LIMIT * 2.0 {
            return Err(FixedScaleOverlayError::ScaleTooSmall);
        }
        Ok(Self::of(Step::Scale(scale)))
    }

    /// The finest grid on which all points of two resources can be had, whose step is a power of two.
    ///
    /// # Errors
    /// `NotFinite` where a coordinate is not a number or is infinite; `OutOfRange` where it is above
    /// [`FloatNumber::LIMIT`].
    pub fn finest<P: FloatPointCompatible>(
        one: &(impl ShapeResource<P> + ?Sized),
        other: &(impl ShapeResource<P> + ?Sized),
    ) -> Result<Self, OverlayError> {
        let mut greatest = 0_f64;
        for path in one.iter_paths().chain(other.iter_paths()) {
            for point in path {
                let (x, y) = (checked(point.x())?, checked(point.y())?);
                greatest = greatest.max(x.abs()).max(y.abs());
            }
        }
        // (greatest is below 2 to the power `above`)
        let biased = i32::try_from(greatest.to_bits() >> FRACTION).unwrap_or(0);
        let above = biased.saturating_sub(1022);
        let exponent = above.saturating_sub(I::GRID_BITS).max(*EXPONENTS.start());
        Ok(Self::of(Step::Power(exponent)))
    }

    /// The step.
    pub fn step(&self) -> f64 {
        match self.step {
            Step::Power(exponent) => power(exponent),
            Step::Scale(scale) => scale.recip(),
        }
    }

    /// Whether the step is a power of two.
    pub fn is_exact(&self) -> bool {
        matches!(self.step, Step::Power(_))
    }

    /// A coordinate in steps.
    fn steps<T: FloatNumber>(&self, value: T) -> Result<I, OverlayError> {
        let value = checked(value)?;
        let there = nearest(match self.step {
            Step::Power(exponent) => {
                // (in two steps, for the power may be none)
                let back = exponent.saturating_neg();
                let half = back / 2;
                value * power(half) * power(back.saturating_sub(half))
            }
            Step::Scale(scale) => value * scale,
        });
        if there.abs() > power(I::GRID_BITS) {
            return Err(OverlayError::OutOfRange);
        }
        Ok(I::of_wide(whole_of(there)))
    }

    /// Steps as a coordinate.
    fn value<T: FloatNumber>(&self, steps: I) -> T {
        let steps = float_of(steps.wide());
        T::from_float(match self.step {
            Step::Power(exponent) => steps * power(exponent),
            Step::Scale(scale) => steps / scale,
        })
    }

    /// The paths of a resource on the grid.
    pub(crate) fn paths<P: FloatPointCompatible>(
        &self,
        resource: &(impl ShapeResource<P> + ?Sized),
    ) -> Result<Paths<I>, OverlayError> {
        let mut paths = Paths::new();
        for path in resource.iter_paths() {
            let point = |it: &P| Ok(IntPoint::new(self.steps(it.x())?, self.steps(it.y())?));
            paths.add_made(path.iter().map(point))?;
        }
        Ok(paths)
    }

    /// A path for which a whole one stands.
    pub(crate) fn path<P: FloatPointCompatible>(&self, whole: &[IntPoint<I>]) -> Result<Contour<P>, OverlayError> {
        let mut path = with_room(whole.len())?;
        let point = |it: &IntPoint<I>| P::from_xy(self.value(it.x), self.value(it.y));
        path.extend(whole.iter().map(point));
        Ok(path)
    }

    /// The paths for which whole ones stand.
    pub(crate) fn all_paths<P: FloatPointCompatible>(
        &self,
        whole: &[Vec<IntPoint<I>>],
    ) -> Result<Vec<Contour<P>>, OverlayError> {
        let mut paths = with_room(whole.len())?;
        for path in whole {
            paths.push(self.path(path)?);
        }
        Ok(paths)
    }

    /// The shapes for which whole ones stand.
    pub(crate) fn shapes<P: FloatPointCompatible>(&self, whole: &IntShapes<I>) -> Result<Shapes<P>, OverlayError> {
        let mut shapes = with_room(whole.len())?;
        for shape in whole {
            shapes.push(self.all_paths(shape)?);
        }
        Ok(shapes)
    }

    /// An area in squared steps, to the nearest whole number, of two the smaller; one below 0 is taken as 0.
    pub(crate) fn squared_steps<T: FloatNumber>(&self, area: T) -> Result<I::WideUInt, OverlayError> {
        use crate::i_float::int::number::uint::UIntNumber;
        let area = area.to_f64();
        if area.is_nan() {
            return Err(OverlayError::NotFinite);
        }
        let steps = area_of((area / self.step() / self.step()).max(0.0));
        Ok(I::WideUInt::try_from(steps).unwrap_or(I::WideUInt::MAX))
    }
}

/// A coordinate, unless it is refused.
fn checked<T: FloatNumber>(value: T) -> Result<f64, OverlayError> {
    let value = value.to_f64();
    if !value.is_finite() {
        return Err(OverlayError::NotFinite);
    }
    if value.abs() > T::LIMIT {
        return Err(OverlayError::OutOfRange);
    }
    Ok(value)
}
