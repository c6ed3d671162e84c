//! Simplifying.

use crate::core::fill_rule::FillRule;
use crate::core::integer::OverlayInt;
use crate::core::overlay::{IntOverlayOptions, Overlay, ShapeType};
use crate::core::overlay_rule::OverlayRule;
use crate::core::solver::Solver;
use crate::engine::lists::{make_room_instead, shapes_of};
use crate::engine::options::Options;
use crate::engine::width::Query;
use crate::error::{answered, OverlayError};
use crate::ffi::{Engine, Given};
use crate::i_float::int::point::IntPoint;
use crate::i_shape::flat::buffer::FlatContoursBuffer;
use crate::i_shape::int::shape::{IntContour, IntShape, IntShapes};
use crate::i_shape::source::int::resource::IntShapeResource;
use ::core::marker::PhantomData;

/// Simplifying in one call.
///
/// ```
/// use polyover::core::{fill_rule::FillRule, overlay::IntOverlayOptions, simplify::Simplify};
/// use polyover::i_float::int::point::IntPoint;
///
/// let bow = [[0, 0], [4, 4], [4, 0], [0, 4]].map(IntPoint::from);
/// assert_eq!(bow.simplify(FillRule::NonZero, IntOverlayOptions::ogc()).len(), 2);
/// ```
pub trait Simplify<I: OverlayInt> {
    /// The shapes round the points that the contours fill.
    ///
    /// # Errors
    /// As of [`Overlay::try_overlay`].
    fn try_simplify(
        &self,
        fill_rule: FillRule,
        options: IntOverlayOptions<I::WideUInt>,
    ) -> Result<IntShapes<I>, OverlayError>;

    /// The shapes round the points that the contours fill.
    ///
    /// # Panics
    /// Where [`Self::try_simplify`] is refused.
    #[track_caller]
    fn simplify(&self, fill_rule: FillRule, options: IntOverlayOptions<I::WideUInt>) -> IntShapes<I> {
        answered(self.try_simplify(fill_rule, options))
    }
}

impl<I, R> Simplify<I> for R
where
    I: OverlayInt,
    R: IntShapeResource<I> + ?Sized,
{
    fn try_simplify(
        &self,
        fill_rule: FillRule,
        options: IntOverlayOptions<I::WideUInt>,
    ) -> Result<IntShapes<I>, OverlayError> {
        Overlay::new_custom(0, options, Solver::default()).try_simplify_source(self, fill_rule)
    }
}

struct Simplified<I>(FillRule, Options, PhantomData<I>);

impl<I: OverlayInt> Query for Simplified<I> {
    type Answer = IntShapes<I>;

    fn ask<E: Engine>(&self, first: Given<'_, E::C>, _: Given<'_, E::C>) -> Result<IntShapes<I>, OverlayError> {
        shapes_of(&E::simplify(self.0, &self.1, first)?)
    }
}

/// The shapes of a shape; none where it is one contour that stays as it is given.
struct SimplifiedShape<I>(FillRule, Options, PhantomData<I>);

impl<I: OverlayInt> Query for SimplifiedShape<I> {
    type Answer = Option<IntShapes<I>>;

    fn ask<E: Engine>(&self, first: Given<'_, E::C>, _: Given<'_, E::C>) -> Result<Self::Answer, OverlayError> {
        let (held, as_given) = E::simplify_shape(self.0, &self.1, first)?;
        if as_given {
            return Ok(None);
        }
        shapes_of(&held).map(Some)
    }
}

impl<I: OverlayInt> Overlay<I> {
    /// Replaces the contours by those of a resource, and gives the shapes to which they are simplified.
    ///
    /// # Errors
    /// As of [`Overlay::try_overlay`].
    pub fn try_simplify_source<R: IntShapeResource<I> + ?Sized>(
        &mut self,
        resource: &R,
        fill_rule: FillRule,
    ) -> Result<IntShapes<I>, OverlayError> {
        self.clear();
        self.try_add_source(resource, ShapeType::Subject)?;
        let options = self.options.for_engine(self.solver);
        self.ask(&Simplified(fill_rule, options, PhantomData))
    }

    /// Replaces the contours by those of a resource, and simplifies them.
    ///
    /// # Panics
    /// Where [`Self::try_simplify_source`] is refused.
    #[track_caller]
    pub fn simplify_source<R: IntShapeResource<I> + ?Sized>(
        &mut self,
        resource: &R,
        fill_rule: FillRule,
    ) -> IntShapes<I> {
        answered(self.try_simplify_source(resource, fill_rule))
    }

    /// Replaces the contours by this one, and gives its shapes; none where it is a shape as it is given.
    ///
    /// A contour is simple that meets itself nowhere and has no point on one line with its two neighbours, unless
    /// `preserve_input_collinear` keeps such points. As in `i_overlay`, the smallest area plays no part for a simple
    /// one.
    ///
    /// # Errors
    /// As of [`Overlay::try_overlay`].
    pub fn try_simplify_contour(
        &mut self,
        contour: &[IntPoint<I>],
        fill_rule: FillRule,
    ) -> Result<Option<IntShapes<I>>, OverlayError> {
        self.clear();
        self.subject.add(contour)?;
        let options = self.options.for_engine(self.solver);
        self.ask(&SimplifiedShape(fill_rule, options, PhantomData))
    }

    /// Replaces the contours by this one, and gives its shapes, as [`Self::try_simplify_contour`] does.
    ///
    /// # Panics
    /// Where [`Self::try_simplify_contour`] is refused.
    #[track_caller]
    pub fn simplify_contour(&mut self, contour: &[IntPoint<I>], fill_rule: FillRule) -> Option<IntShapes<I>> {
        answered(self.try_simplify_contour(contour, fill_rule))
    }

    /// Replaces the contours by these, and gives their shapes; none where it is one contour that is a shape as it is
    /// given ([`Self::try_simplify_contour`]).
    ///
    /// # Errors
    /// As of [`Overlay::try_overlay`].
    pub fn try_simplify_shape(
        &mut self,
        shape: &[IntContour<I>],
        fill_rule: FillRule,
    ) -> Result<Option<IntShapes<I>>, OverlayError> {
        if let [contour] = shape {
            return self.try_simplify_contour(contour, fill_rule);
        }
        self.clear();
        self.try_add_source(shape, ShapeType::Subject)?;
        self.try_overlay(OverlayRule::Subject, fill_rule).map(Some)
    }

    /// Replaces the contours by these, and gives their shapes, as [`Self::try_simplify_shape`] does.
    ///
    /// # Panics
    /// Where [`Self::try_simplify_shape`] is refused.
    #[track_caller]
    pub fn simplify_shape(&mut self, shape: &[IntContour<I>], fill_rule: FillRule) -> Option<IntShapes<I>> {
        answered(self.try_simplify_shape(shape, fill_rule))
    }

    /// Replaces the contours by those of shapes, and gives the shapes of an overlay of them.
    ///
    /// # Panics
    /// Where [`Overlay::try_overlay`] is refused.
    #[deprecated(note = "Use `simplify_source` instead.")]
    #[track_caller]
    pub fn simplify_shapes(&mut self, shapes: &[IntShape<I>], fill_rule: FillRule) -> IntShapes<I> {
        self.reinit_with_subj(shapes);
        self.overlay(OverlayRule::Subject, fill_rule)
    }

    /// Replaces the contours of a buffer by those to which they are simplified: one contour as
    /// [`Self::try_simplify_contour`] does where it is simple, others as [`Self::try_overlay_into`] does.
    ///
    /// # Errors
    /// As of [`Overlay::try_overlay`]; the buffer stays then.
    pub fn try_simplify_flat_buffer(
        &mut self,
        flat_buffer: &mut FlatContoursBuffer<I>,
        fill_rule: FillRule,
    ) -> Result<(), OverlayError> {
        self.clear();
        self.try_add_source(flat_buffer, ShapeType::Subject)?;
        if !flat_buffer.is_single_contour() {
            return self.try_overlay_into(OverlayRule::Subject, fill_rule, flat_buffer);
        }
        let mut options = self.options.for_engine(self.solver);
        options.may_touch = true;
        match self.ask(&SimplifiedShape(fill_rule, options, PhantomData))? {
            Some(shapes) => fill_buffer(flat_buffer, &shapes),
            None => Ok(()),
        }
    }

    /// Replaces the contours of a buffer by those to which they are simplified.
    ///
    /// # Panics
    /// Where [`Self::try_simplify_flat_buffer`] is refused.
    #[track_caller]
    pub fn simplify_flat_buffer(&mut self, flat_buffer: &mut FlatContoursBuffer<I>, fill_rule: FillRule) {
        answered(self.try_simplify_flat_buffer(flat_buffer, fill_rule));
    }
}

/// Makes the contours of shapes those of a buffer.
fn fill_buffer<I: OverlayInt>(buffer: &mut FlatContoursBuffer<I>, shapes: &IntShapes<I>) -> Result<(), OverlayError> {
    let count = shapes
        .iter()
        .flatten()
        .map(|it| it.len())
        .fold(0, usize::saturating_add);
    make_room_instead(&mut buffer.points, count)?;
    make_room_instead(&mut buffer.ranges, shapes.iter().flatten().count())?;
    buffer.clear_and_reserve(0, 0);
    for contour in shapes.iter().flatten() {
        buffer.add_contour(contour);
    }
    Ok(())
}
