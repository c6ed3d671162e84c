//! Constructors and adders of `StringOverlay`.

use crate::figures::{PATHS, Width, lone_squares, point, square, square_at, squares};
use crate::refusals::{Answer, Memory, Trial};
use crate::seen::Seen;
use i_overlay::fill_rule::FillRule;
use i_overlay::i_float::int::point::IntPoint;
use i_overlay::i_shape::int::shape::{IntShape, IntShapes};
use i_overlay::overlay::IntOverlayOptions;
use i_overlay::string::line::IntLine;
use i_overlay::string::overlay::StringOverlay;
use i_overlay::string::rule::StringRule;
use std::process::Abort;
use std::test::Fail;

pub(crate) type Built<'m, I> = StringOverlay<I, Memory<'m>>;

// The slices of the shape show what is held: each contour and each string below changes them.
impl<'m, I: Width> Seen for StringOverlay<I, Memory<'m>> {
    type Content = Option<IntShapes<I, Memory<'m>>>;

    fn content(&mut self) -> Answer<Option<IntShapes<I, Memory<'m>>>> {
        match self.build_graph_view(FillRule::NonZero)? {
            Some(view) => Ok(Some(view.extract_shapes(StringRule::Slice)?)),
            None => Ok(None),
        }
    }
}

/// The square of the shape.
pub(crate) fn plate<I: Width>() -> [IntPoint<I>; 4] {
    square(0, 8)
}

/// A line across it.
pub(crate) fn bar_at<I: Width>(place: usize) -> IntLine<I> {
    match place {
        0 => [point(-1, 2), point(9, 2)],
        1 => [point(-1, 4), point(9, 4)],
        _ => [point(-1, 6), point(9, 6)],
    }
}

/// The lines as paths.
pub(crate) fn bars<I: Width>(memory: Memory<'_>) -> Answer<IntShape<I, Memory<'_>>> {
    let mut paths = Vec::new(memory);
    for place in 0..PATHS {
        paths.push(Vec::from_array(memory, bar_at(place))?)?;
    }
    Ok(paths)
}

/// The lines.
pub(crate) fn lines<I: Width>() -> [IntLine<I>; PATHS] {
    [bar_at(0), bar_at(1), bar_at(2)]
}

// A builder with the square, and room for `capacity` edges.
fn roomy<I: Width>(memory: Memory<'_>, capacity: usize) -> Answer<Built<'_, I>> {
    let mut overlay = StringOverlay::new(memory, capacity)?;
    overlay.add_shape_contour(&plate())?;
    Ok(overlay)
}

/// A builder with the square, more contours of the shape, and lines.
pub(crate) fn builder<I: Width>(
    memory: Memory<'_>,
    contours: usize,
    strings: usize,
) -> Answer<Built<'_, I>> {
    let mut overlay = roomy(memory, 0)?;
    for place in 0..contours {
        overlay.add_shape_contour(&square_at(place))?;
    }
    for place in 0..strings {
        overlay.add_string_line(bar_at(place))?;
    }
    Ok(overlay)
}

// Refuses the growths of an adder of all contours, or of all lines.
fn adds_all<'m, I: Width, C: Fn(&mut Built<'m, I>) -> Answer<()> + Drop>(
    trial: &Trial<'m, impl Abort>,
    name: &str,
    are_strings: bool,
    add: C,
) -> Result<(), Fail> {
    let memory = trial.memory;
    let first = |count| {
        let (contours, strings) = if are_strings { (0, count) } else { (count, 0) };
        builder::<I>(memory, contours, strings)
    };
    // (there is room for the first line, and not for the last)
    trial.adds_those_before(name, || roomy(memory, 6), add, PATHS, first)
}

fn check_contours<I: Width>(trial: &Trial<'_, impl Abort>) -> Result<(), Fail> {
    let memory = trial.memory;
    // (there is room for two edges of a contour)
    let new = || roomy::<I>(memory, 6);
    let more = square_at::<I>(0);
    trial.adds_or_keeps("StringOverlay::add_shape_contour", new, |it| {
        it.add_shape_contour(&more)
    })?;
    trial.adds_or_keeps("StringOverlay::add_shape_contour_iter", new, |it| {
        it.add_shape_contour_iter(more.iter().copied())
    })?;
    let (shape, shapes) = (squares::<I>(memory, PATHS)?, lone_squares::<I>(memory)?);
    adds_all::<I, _>(trial, "StringOverlay::add_shape_source", false, |it| {
        it.add_shape_source(&shape)
    })?;
    adds_all::<I, _>(trial, "StringOverlay::add_shape_contours", false, |it| {
        it.add_shape_contours(&shape)
    })?;
    adds_all::<I, _>(
        trial,
        "StringOverlay::add_shapes",
        false,
        |it| it.add_shapes(&shapes),
    )
}

#[test]
fn contours_of_string_overlay(rt: HostRuntime) -> Result<(), Fail> {
    at_a_width!(rt, check_contours)
}

fn check_strings<I: Width>(trial: &Trial<'_, impl Abort>) -> Result<(), Fail> {
    let memory = trial.memory;
    let new = || builder::<I>(memory, 0, 0);
    let (line, paths) = (bar_at::<I>(0), bars::<I>(memory)?);
    trial.adds_or_keeps(
        "StringOverlay::add_string_line",
        new,
        |it| it.add_string_line(line),
    )?;
    trial.adds_or_keeps(
        "StringOverlay::add_string_path",
        new,
        |it| it.add_string_path(&line),
    )?;
    // (there is room for one of its two edges)
    let half = || roomy::<I>(memory, 5);
    trial.adds_or_keeps("StringOverlay::add_string_contour", half, |it| {
        it.add_string_contour(&line)
    })?;
    adds_all::<I, _>(trial, "StringOverlay::add_string_lines", true, |it| {
        it.add_string_lines(&lines())
    })?;
    adds_all::<I, _>(trial, "StringOverlay::add_string_source", true, |it| {
        it.add_string_source(&paths)
    })?;
    adds_all::<I, _>(trial, "StringOverlay::add_string_paths", true, |it| {
        it.add_string_paths(&paths)
    })?;
    adds_all::<I, _>(
        trial,
        "StringOverlay::add_string_contour_source",
        true,
        |it| { it.add_string_contour_source(&paths) },
    )?;
    adds_all::<I, _>(trial, "StringOverlay::add_string_contours", true, |it| {
        it.add_string_contours(&paths)
    })
}

#[test]
fn strings_of_string_overlay(rt: HostRuntime) -> Result<(), Fail> {
    at_a_width!(rt, check_strings)
}

fn check_constructors<I: Width>(trial: &Trial<'_, impl Abort>) -> Result<(), Fail> {
    let memory = trial.memory;
    let options = IntOverlayOptions::default();
    let (first, paths) = (plate::<I>(), bars::<I>(memory)?);
    let shape: IntShape<I, Memory<'_>> = Vec::from_array(
        memory,
        [Vec::from_array(memory, first)?],
    )?;
    let shapes: IntShapes<I, Memory<'_>> = Vec::from_array(memory, [shape.clone()?])?;
    let none = || StringOverlay::<I, Memory<'_>>::new(memory, 0);
    let one = || builder::<I>(memory, 0, 0);
    let cut = || builder::<I>(memory, 0, PATHS);
    trial.makes(
        "StringOverlay::new",
        none(),
        || StringOverlay::new(memory, 4),
    )?;
    trial.makes("StringOverlay::with_options", none(), || {
        StringOverlay::with_options(memory, 4, options)
    })?;
    trial.makes("StringOverlay::from_shape", one(), || {
        StringOverlay::from_shape(memory, &shape)
    })?;
    trial.makes("StringOverlay::from_shape_custom", one(), || {
        StringOverlay::from_shape_custom(memory, &shape, options)
    })?;
    trial.makes("StringOverlay::from_shape_and_string", cut(), || {
        StringOverlay::from_shape_and_string(memory, &shape, &paths)
    })?;
    trial.makes("StringOverlay::from_shape_and_string_custom", cut(), || {
        StringOverlay::from_shape_and_string_custom(memory, &shape, &paths, options)
    })?;
    trial.makes("StringOverlay::with_shape_contour", one(), || {
        StringOverlay::with_shape_contour(memory, &first)
    })?;
    trial.makes("StringOverlay::with_shape_contours", one(), || {
        StringOverlay::with_shape_contours(memory, &shape)
    })?;
    trial.makes("StringOverlay::with_shape", one(), || {
        StringOverlay::with_shape(memory, &shape)
    })?;
    trial.makes("StringOverlay::with_shapes", one(), || {
        StringOverlay::with_shapes(memory, &shapes)
    })
}

#[test]
fn constructors_of_string_overlay(rt: HostRuntime) -> Result<(), Fail> {
    at_a_width!(rt, check_constructors)
}
