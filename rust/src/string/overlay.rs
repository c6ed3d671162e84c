//! The builder of strings over a shape.

use crate::core::fill_rule::FillRule;
use crate::core::integer::OverlayInt;
use crate::core::overlay::IntOverlayOptions;
use crate::core::solver::Solver;
use crate::engine::lists::{contours_of, shapes_of};
use crate::engine::options::{Keep, SliceOptions};
use crate::engine::paths::Paths;
use crate::engine::width::Query;
use crate::error::{answered, OverlayError};
use crate::ffi::{Engine, Given};
use crate::i_float::int::point::IntPoint;
use crate::i_shape::int::path::IntPath;
use crate::i_shape::int::shape::{IntContour, IntShape, IntShapes};
use crate::i_shape::source::int::resource::IntShapeResource;
use crate::string::clip::ClipRule;
use crate::string::graph::StringGraph;
use crate::string::line::IntLine;
use ::core::marker::PhantomData;
use alloc::vec::Vec;

/// Contours of a shape, and strings over it, which are open or closed lines. Queries leave what was added as it is.
#[derive(Debug, Clone)]
pub struct StringOverlay<I: OverlayInt> {
    /// How answers look. `i_overlay` does not read them; here each query is refused where an option is not the default
    /// one ([`NotHad`](OverlayError::NotHad)).
    pub options: IntOverlayOptions<I::WideUInt>,
    pub(crate) shape: Paths<I>,
    pub(crate) strings: Paths<I>,
}

struct Sliced<I>(FillRule, Solver, PhantomData<I>);

impl<I: OverlayInt> Query for Sliced<I> {
    type Answer = IntShapes<I>;

    fn ask<E: Engine>(&self, first: Given<'_, E::C>, second: Given<'_, E::C>) -> Result<IntShapes<I>, OverlayError> {
        shapes_of(&E::slice(self.0, self.1, first, second)?)
    }
}

struct SlicedSo<I>(FillRule, SliceOptions, PhantomData<I>);

impl<I: OverlayInt> Query for SlicedSo<I> {
    type Answer = IntShapes<I>;

    fn ask<E: Engine>(&self, first: Given<'_, E::C>, second: Given<'_, E::C>) -> Result<IntShapes<I>, OverlayError> {
        shapes_of(&E::slice_custom(self.0, &self.1, first, second)?)
    }
}

struct Tiled<I>(FillRule, Solver, PhantomData<I>);

impl<I: OverlayInt> Query for Tiled<I> {
    type Answer = IntShapes<I>;

    fn ask<E: Engine>(&self, shape: Given<'_, E::C>, cell: Given<'_, E::C>) -> Result<IntShapes<I>, OverlayError> {
        shapes_of(&E::tiles(self.0, self.1, shape, cell)?)
    }
}

struct Clipped<I>(FillRule, Keep, Solver, PhantomData<I>);

impl<I: OverlayInt> Query for Clipped<I> {
    type Answer = Vec<IntPath<I>>;

    fn ask<E: Engine>(&self, first: Given<'_, E::C>, second: Given<'_, E::C>) -> Result<Self::Answer, OverlayError> {
        contours_of(&E::clip(self.0, self.1, self.2, first, second)?)
    }
}

impl<I: OverlayInt> StringOverlay<I> {
    /// A builder with room for points.
    pub fn new(capacity: usize) -> Self {
        Self::with_options(capacity, IntOverlayOptions::default())
    }

    /// A builder with room for points, with options.
    pub fn with_options(capacity: usize, options: IntOverlayOptions<I::WideUInt>) -> Self {
        Self {
            options,
            shape: Paths::with_capacity(capacity),
            strings: Paths::new(),
        }
    }

    /// A builder of a shape and of open strings.
    pub(crate) fn try_of<R0, R1>(shape: &R0, string: &R1) -> Result<Self, OverlayError>
    where
        R0: IntShapeResource<I> + ?Sized,
        R1: IntShapeResource<I> + ?Sized,
    {
        let mut overlay = Self::new(0);
        overlay.try_add_shape_source(shape)?;
        overlay.try_add_string_source(string)?;
        Ok(overlay)
    }

    /// A builder of a shape.
    ///
    /// # Panics
    /// Where memory is refused.
    #[track_caller]
    pub fn from_shape<R: IntShapeResource<I> + ?Sized>(shape: &R) -> Self {
        Self::from_shape_custom(shape, IntOverlayOptions::default())
    }

    /// A builder of a shape, with options.
    ///
    /// # Panics
    /// Where memory is refused.
    #[track_caller]
    pub fn from_shape_custom<R: IntShapeResource<I> + ?Sized>(
        shape: &R,
        options: IntOverlayOptions<I::WideUInt>,
    ) -> Self {
        let mut overlay = Self::with_options(0, options);
        overlay.add_shape_source(shape);
        overlay
    }

    /// A builder of a shape and of open strings.
    ///
    /// # Panics
    /// Where memory is refused.
    #[track_caller]
    pub fn from_shape_and_string<R0, R1>(shape: &R0, string: &R1) -> Self
    where
        R0: IntShapeResource<I> + ?Sized,
        R1: IntShapeResource<I> + ?Sized,
    {
        Self::from_shape_and_string_custom(shape, string, IntOverlayOptions::default())
    }

    /// A builder of a shape and of open strings, with options.
    ///
    /// # Panics
    /// Where memory is refused.
    #[track_caller]
    pub fn from_shape_and_string_custom<R0, R1>(
        shape: &R0,
        string: &R1,
        options: IntOverlayOptions<I::WideUInt>,
    ) -> Self
    where
        R0: IntShapeResource<I> + ?Sized,
        R1: IntShapeResource<I> + ?Sized,
    {
        let mut overlay = Self::from_shape_custom(shape, options);
        overlay.add_string_source(string);
        overlay
    }

    /// Adds the contours of a resource to the shape.
    ///
    /// # Errors
    /// `Memory`; nothing is added then.
    pub fn try_add_shape_source<R: IntShapeResource<I> + ?Sized>(&mut self, resource: &R) -> Result<(), OverlayError> {
        self.shape.add_source(resource)
    }

    /// Adds the contours of a resource to the shape.
    ///
    /// # Panics
    /// Where [`Self::try_add_shape_source`] is refused.
    #[track_caller]
    pub fn add_shape_source<R: IntShapeResource<I> + ?Sized>(&mut self, resource: &R) {
        answered(self.try_add_shape_source(resource));
    }

    /// Adds the paths of a resource as open strings.
    ///
    /// # Errors
    /// `Memory`; nothing is added then.
    pub fn try_add_string_source<R: IntShapeResource<I> + ?Sized>(&mut self, resource: &R) -> Result<(), OverlayError> {
        self.strings.add_source(resource)
    }

    /// Adds the paths of a resource as open strings.
    ///
    /// # Panics
    /// Where [`Self::try_add_string_source`] is refused.
    #[track_caller]
    pub fn add_string_source<R: IntShapeResource<I> + ?Sized>(&mut self, resource: &R) {
        answered(self.try_add_string_source(resource));
    }

    /// Adds the paths of a resource as closed strings, point by point, as `Vec::extend` does where memory is refused.
    pub fn add_string_contour_source<R: IntShapeResource<I> + ?Sized>(&mut self, resource: &R) {
        for path in resource.iter_paths() {
            self.add_string_contour(path);
        }
    }

    /// Adds a contour to the shape, point by point, as `Vec::extend` does where memory is refused.
    pub fn add_shape_contour_iter<It: Iterator<Item = IntPoint<I>>>(&mut self, iter: It) {
        self.shape.add_iter(iter);
    }

    /// Adds a contour to the shape.
    ///
    /// # Panics
    /// Where [`Self::try_add_shape_source`] is refused.
    #[track_caller]
    pub fn add_shape_contour(&mut self, contour: &[IntPoint<I>]) {
        answered(self.shape.add(contour));
    }

    /// Adds a line.
    ///
    /// # Panics
    /// Where [`Self::try_add_string_source`] is refused.
    #[track_caller]
    pub fn add_string_line(&mut self, line: IntLine<I>) {
        answered(self.strings.add(&line));
    }

    /// Adds lines.
    ///
    /// # Panics
    /// Where [`Self::try_add_string_source`] is refused.
    #[track_caller]
    pub fn add_string_lines(&mut self, lines: &[IntLine<I>]) {
        self.add_string_source(lines);
    }

    /// Adds an open string.
    ///
    /// # Panics
    /// Where [`Self::try_add_string_source`] is refused.
    #[track_caller]
    pub fn add_string_path(&mut self, path: &[IntPoint<I>]) {
        answered(self.strings.add(path));
    }

    /// Adds a closed string, point by point, as `Vec::extend` does where memory is refused.
    pub fn add_string_contour(&mut self, contour: &[IntPoint<I>]) {
        self.strings.add_iter(contour.iter().chain(contour.first()).copied());
    }

    /// The parts of the strings that the rules keep.
    ///
    /// # Errors
    /// `Memory`; `OutOfRange`, of `i64` alone; `TooManyEdges`; `NotSettled`, of `Solver::ROUNDS` alone; `NotHad`, of
    /// each option that is not the default one.
    pub fn try_clip(
        &self,
        fill_rule: FillRule,
        clip_rule: ClipRule,
        solver: Solver,
    ) -> Result<Vec<IntPath<I>>, OverlayError> {
        self.options.refuse_any()?;
        let keep = Keep {
            is_inverted: clip_rule.invert,
            has_boundary: clip_rule.boundary_included,
        };
        let query = Clipped(fill_rule, keep, solver, PhantomData);
        I::ask(&query, self.shape.as_given(), self.strings.as_given())
    }

    /// The shapes into which the strings cut the shape. Points on one line where edges were cut stay in them.
    ///
    /// # Errors
    /// As of [`Self::try_clip`].
    pub fn try_slice(&self, fill_rule: FillRule, solver: Solver) -> Result<IntShapes<I>, OverlayError> {
        self.options.refuse_any()?;
        let query = Sliced(fill_rule, solver, PhantomData);
        I::ask(&query, self.shape.as_given(), self.strings.as_given())
    }

    /// The same, as options of slices ask.
    pub(crate) fn try_slice_custom(&self, fill: FillRule, options: SliceOptions) -> Result<IntShapes<I>, OverlayError> {
        self.options.refuse_any()?;
        I::ask(
            &SlicedSo(fill, options, PhantomData),
            self.shape.as_given(),
            self.strings.as_given(),
        )
    }

    /// The tiles into which the cells of a grid cut the shape, each in one cell. Cells are `width` wide and `height`
    /// high, and a node of the grid is at (0, 0). The strings play no part. `i_overlay` has no such call.
    ///
    /// # Errors
    /// As of [`Self::try_clip`]; `BadGrid` where a side is below 1, or more than 1,000 lines cross the box of all
    /// points in a direction.
    pub fn try_slice_by_grid(
        &self,
        width: I,
        height: I,
        fill_rule: FillRule,
        solver: Solver,
    ) -> Result<IntShapes<I>, OverlayError> {
        self.options.refuse_any()?;
        let query = Tiled(fill_rule, solver, PhantomData);
        let cell = Given {
            coordinates: &[width, height],
            ends: &[1],
        };
        I::ask(&query, self.shape.as_given(), cell)
    }

    /// The parts of the strings that the rules keep.
    ///
    /// # Panics
    /// Where [`Self::try_clip`] is refused.
    #[track_caller]
    pub fn clip_string_lines(self, fill_rule: FillRule, clip_rule: ClipRule) -> Vec<IntPath<I>> {
        self.clip_string_lines_with_solver(fill_rule, clip_rule, Solver::default())
    }

    /// The parts of the strings that the rules keep.
    ///
    /// # Panics
    /// Where [`Self::try_clip`] is refused.
    #[track_caller]
    pub fn clip_string_lines_with_solver(
        self,
        fill_rule: FillRule,
        clip_rule: ClipRule,
        solver: Solver,
    ) -> Vec<IntPath<I>> {
        answered(self.try_clip(fill_rule, clip_rule, solver))
    }

    /// A view of the strings over the shape; none where both are without points.
    pub fn build_graph_view(&mut self, fill_rule: FillRule) -> Option<StringGraph<'_, I>> {
        self.build_graph_view_with_solver(fill_rule, Solver::default())
    }

    /// A view of the strings over the shape; none where both are without points.
    pub fn build_graph_view_with_solver(&mut self, fill_rule: FillRule, solver: Solver) -> Option<StringGraph<'_, I>> {
        let is_empty = self.shape.has_no_point() && self.strings.has_no_point();
        (!is_empty).then_some(StringGraph {
            overlay: self,
            fill: fill_rule,
            solver,
        })
    }
}

/// Calls of `i_overlay` that have another name now. Each panics where the call that its note names does.
impl<I: OverlayInt> StringOverlay<I> {
    /// A builder of a contour.
    #[deprecated(note = "Use `from_shape` instead.")]
    #[track_caller]
    pub fn with_shape_contour(contour: &[IntPoint<I>]) -> Self {
        Self::from_shape(contour)
    }

    /// A builder of contours.
    #[deprecated(note = "Use `from_shape` instead.")]
    #[track_caller]
    pub fn with_shape_contours(contours: &[IntContour<I>]) -> Self {
        Self::from_shape(contours)
    }

    /// A builder of a shape.
    #[deprecated(note = "Use `from_shape` instead.")]
    #[track_caller]
    pub fn with_shape(shape: &[IntContour<I>]) -> Self {
        Self::from_shape(shape)
    }

    /// A builder of shapes.
    #[deprecated(note = "Use `from_shape` instead.")]
    #[track_caller]
    pub fn with_shapes(shapes: &[IntShape<I>]) -> Self {
        Self::from_shape(shapes)
    }

    /// Adds contours to the shape.
    #[deprecated(note = "Use `add_shape_source` instead.")]
    #[track_caller]
    pub fn add_shape_contours(&mut self, contours: &[IntContour<I>]) {
        self.add_shape_source(contours);
    }

    /// Adds shapes to the shape.
    #[deprecated(note = "Use `add_shape_source` instead.")]
    #[track_caller]
    pub fn add_shapes(&mut self, shapes: &[IntShape<I>]) {
        self.add_shape_source(shapes);
    }

    /// Adds open strings.
    #[deprecated(note = "Use `add_string_source` instead.")]
    #[track_caller]
    pub fn add_string_paths(&mut self, paths: &[IntPath<I>]) {
        self.add_string_source(paths);
    }

    /// Adds closed strings.
    #[deprecated(note = "Use `add_string_contour_source` instead.")]
    pub fn add_string_contours(&mut self, contours: &[IntContour<I>]) {
        self.add_string_contour_source(contours);
    }
}
