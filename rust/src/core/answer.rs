//! An answer where the library has it, and iterators over it.

use crate::core::integer::OverlayInt;
use crate::core::overlay::queries::Asked;
use crate::core::overlay::Overlay;
use crate::engine::lists::{points_of, ranges};
use crate::engine::width::Query;
use crate::error::OverlayError;
use crate::ffi::{Engine, Given, Held, Narrow, Wide};
use crate::i_float::int::point::IntPoint;
use ::core::marker::PhantomData;
use ::core::ops::Range;

/// An answer at whichever width.
#[derive(Debug)]
pub(crate) enum Either {
    /// At 32 bits.
    Narrow(Held<Narrow>),
    /// At 64 bits.
    Wide(Held<Wide>),
}

impl Query for Asked {
    type Answer = Either;

    fn ask<E: Engine>(&self, first: Given<'_, E::C>, second: Given<'_, E::C>) -> Result<Either, OverlayError> {
        E::overlay(self.rule, self.fill, &self.options, first, second).map(E::either)
    }
}

/// The shapes of an overlay in memory of the library, freed with it. Several threads may read it at once.
///
/// ```
/// use polyover::core::{fill_rule::FillRule, overlay::Overlay, overlay_rule::OverlayRule};
/// use polyover::int_shape;
///
/// let subject = int_shape![[[0, 0], [4, 0], [4, 4], [0, 4]]];
/// let answer = Overlay::<i32>::from_subj(&subject).try_answer(OverlayRule::Subject, FillRule::NonZero)?;
/// for shape in answer.shapes() {
///     for contour in shape.contours() {
///         assert_eq!(contour.points().map(|it| it.x).max(), Some(4));
///     }
/// }
/// assert_eq!(answer.shapes().len(), 1);
/// # Ok::<(), polyover::error::OverlayError>(())
/// ```
#[derive(Debug)]
pub struct OverlayAnswer<I: OverlayInt> {
    held: Either,
    coordinates: PhantomData<fn(I)>,
}

/// A shape of an answer.
#[derive(Debug, Clone)]
pub struct ShapeRef<'a, I: OverlayInt> {
    answer: &'a OverlayAnswer<I>,
    contours: Range<usize>,
}

/// A contour of an answer.
#[derive(Debug, Clone)]
pub struct ContourRef<'a, I: OverlayInt> {
    answer: &'a OverlayAnswer<I>,
    points: Range<usize>,
}

impl<I: OverlayInt> OverlayAnswer<I> {
    /// What the library answers.
    pub(crate) fn of(asked: &Asked, overlay: &Overlay<I>) -> Result<Self, OverlayError> {
        let (held, coordinates) = (overlay.ask(asked)?, PhantomData);
        Ok(Self { held, coordinates })
    }

    fn contour_ends(&self) -> &[usize] {
        match &self.held {
            Either::Narrow(held) => held.contour_ends(),
            Either::Wide(held) => held.contour_ends(),
        }
    }

    fn shape_ends(&self) -> &[usize] {
        match &self.held {
            Either::Narrow(held) => held.shape_ends(),
            Either::Wide(held) => held.shape_ends(),
        }
    }

    /// How many points it has.
    pub fn point_count(&self) -> usize {
        self.contour_ends().last().copied().unwrap_or(0)
    }

    /// Its contours, shape by shape.
    pub fn contours(&self) -> impl ExactSizeIterator<Item = ContourRef<'_, I>> + '_ {
        let contour = |points| ContourRef { answer: self, points };
        ranges(self.contour_ends()).map(contour)
    }

    /// Its shapes.
    pub fn shapes(&self) -> impl ExactSizeIterator<Item = ShapeRef<'_, I>> + '_ {
        let shape = |contours| ShapeRef { answer: self, contours };
        ranges(self.shape_ends()).map(shape)
    }
}

impl<'a, I: OverlayInt> ShapeRef<'a, I> {
    /// Its outline, and then its holes.
    pub fn contours(&self) -> impl ExactSizeIterator<Item = ContourRef<'a, I>> + 'a {
        let answer = self.answer;
        let ends = answer.contour_ends();
        // (the contour before the first one ends where it begins)
        let before = self.contours.start.checked_sub(1).and_then(|it| ends.get(it));
        let mut start = before.copied().unwrap_or(0);
        let own = ends.get(self.contours.clone()).unwrap_or_default();
        own.iter().map(move |&end| {
            let points = ::core::mem::replace(&mut start, end)..end;
            ContourRef { answer, points }
        })
    }
}

/// Points, read at whichever width.
enum Points<N, W> {
    Narrow(N),
    Wide(W),
}

impl<T, N: ExactSizeIterator<Item = T>, W: ExactSizeIterator<Item = T>> Iterator for Points<N, W> {
    type Item = T;

    fn next(&mut self) -> Option<T> {
        match self {
            Self::Narrow(points) => points.next(),
            Self::Wide(points) => points.next(),
        }
    }

    fn size_hint(&self) -> (usize, Option<usize>) {
        match self {
            Self::Narrow(points) => points.size_hint(),
            Self::Wide(points) => points.size_hint(),
        }
    }
}

impl<T, N: ExactSizeIterator<Item = T>, W: ExactSizeIterator<Item = T>> ExactSizeIterator for Points<N, W> {}

impl<'a, I: OverlayInt> ContourRef<'a, I> {
    /// Its points.
    pub fn points(&self) -> impl ExactSizeIterator<Item = IntPoint<I>> + 'a {
        let numbers = self.points.start.saturating_mul(2)..self.points.end.saturating_mul(2);
        match &self.answer.held {
            Either::Narrow(held) => Points::Narrow(points_of(held.coordinates().get(numbers).unwrap_or_default())),
            Either::Wide(held) => Points::Wide(points_of(held.coordinates().get(numbers).unwrap_or_default())),
        }
    }
}
