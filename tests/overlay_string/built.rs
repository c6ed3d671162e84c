//! Each call that makes a builder for strings, or adds to it, at each coordinate type.

use crate::points::{SQUARE, line_of};
use overlay_geom::error::OverlayError;
use overlay_geom::integer::OverlayInt;
use overlay_geom::path::{IntLine, IntShapes};
use overlay_geom::point::{IntPoint, in_range};
use overlay_geom::resource::borrowed::{BorrowedContours, BorrowedShapes};
use overlay_string::lines::BorrowedLines;
use overlay_string::string_overlay::{IntOverlayOptions, StringOverlay};
use small_points::contours::{assert_in_range, contour_of, shape_of};
use std::alloc::Global;
use std::process::Abort;
use std::test::Fail;

// Tests whether the options of a builder without edges are those that are asked for.
fn is_empty<I: OverlayInt>(alloc: Global) -> Result<bool, Fail> {
    let overlay: StringOverlay<I, Global> = StringOverlay::new(alloc, 4)?;
    Ok(!overlay.options.ogc)
}

fn is_empty_with<I: OverlayInt>(alloc: Global) -> Result<bool, Fail> {
    let options = IntOverlayOptions::ogc();
    let overlay: StringOverlay<I, Global> = StringOverlay::with_options(alloc, 4, options)?;
    Ok(overlay.options.ogc)
}

// Tests whether those of a builder with a shape are.
fn has_shape<I: OverlayInt + From<i16>>(rt: &impl Abort, alloc: Global) -> Result<bool, Fail> {
    let shape = shape_of::<I>(alloc, &[SQUARE])?;
    assert_in_range(rt, &shape);
    Ok(!StringOverlay::from_shape(alloc, &shape)?.options.ogc)
}

fn has_shape_with<I: OverlayInt + From<i16>>(rt: &impl Abort, alloc: Global) -> Result<bool, Fail> {
    let shape = shape_of::<I>(alloc, &[SQUARE])?;
    assert_in_range(rt, &shape);
    let overlay = StringOverlay::from_shape_custom(alloc, &shape, IntOverlayOptions::ogc())?;
    Ok(overlay.options.ogc)
}

// Tests whether a builder with a shape and a string has the default options.
fn has_both<I: OverlayInt + From<i16>>(rt: &impl Abort, alloc: Global) -> Result<bool, Fail> {
    let shape = shape_of::<I>(alloc, &[SQUARE])?;
    let string = contour_of::<I>(alloc, &[(-1, 2), (5, 2)])?;
    assert_in_range(rt, &shape);
    assert_in_range(rt, &string);
    let overlay = StringOverlay::from_shape_and_string(alloc, &shape, &string)?;
    Ok(!overlay.options.ogc)
}

fn has_both_with<I: OverlayInt + From<i16>>(rt: &impl Abort, alloc: Global) -> Result<bool, Fail> {
    let shape = shape_of::<I>(alloc, &[SQUARE])?;
    let string = contour_of::<I>(alloc, &[(-1, 2), (5, 2)])?;
    assert_in_range(rt, &shape);
    assert_in_range(rt, &string);
    let options = IntOverlayOptions::ogc();
    let overlay = StringOverlay::from_shape_and_string_custom(alloc, &shape, &string, options)?;
    Ok(overlay.options.ogc)
}

// Each constructor is granted, and has the options that are asked for.
fn constructors<I: OverlayInt + From<i16>>(rt: &impl Abort, alloc: Global) -> Result<(), Fail> {
    assert!(rt; is_empty::<I>(alloc)?);
    assert!(rt; is_empty_with::<I>(alloc)?);
    assert!(rt; has_shape::<I>(rt, alloc)?);
    assert!(rt; has_shape_with::<I>(rt, alloc)?);
    assert!(rt; has_both::<I>(rt, alloc)?);
    assert!(rt; has_both_with::<I>(rt, alloc)?);
    Ok(())
}

// Adds a contour that is in range and whose points come one by one.
fn add_points<I: OverlayInt>(
    rt: &impl Abort,
    overlay: &mut StringOverlay<I, Global>,
    points: &[IntPoint<I>],
) -> Result<(), OverlayError> {
    assert!(rt; in_range(points));
    overlay.add_shape_contour_iter(points.iter().copied())
}

// Each adder of the shape is granted.
fn shapes<I: OverlayInt + From<i16>>(rt: &impl Abort, alloc: Global) -> Result<(), Fail> {
    let mut overlay: StringOverlay<I, Global> = StringOverlay::new(alloc, 0)?;
    let shape = shape_of::<I>(alloc, &[SQUARE])?;
    assert_in_range(rt, &shape);
    overlay.add_shape_source(&shape)?;
    let contour = contour_of::<I>(alloc, SQUARE)?;
    assert!(rt; in_range(&contour));
    overlay.add_shape_contour(&contour)?;
    add_points(rt, &mut overlay, &contour)?;
    Ok(())
}

// Each adder of lines is granted.
fn lines<I: OverlayInt + From<i16>>(rt: &impl Abort, alloc: Global) -> Result<(), Fail> {
    let mut overlay: StringOverlay<I, Global> = StringOverlay::new(alloc, 0)?;
    let line: IntLine<I> = line_of((0, 0), (3, 1));
    assert!(rt; in_range(&line));
    overlay.add_string_line(line)?;
    let lines = [line_of::<I>((0, 0), (3, 1)), line_of::<I>((3, 1), (0, 0))];
    let borrowed = BorrowedLines { lines: &lines };
    assert_in_range(rt, &borrowed);
    overlay.add_string_lines(borrowed.lines)?;
    Ok(())
}

// Each adder of a path is granted.
fn strings<I: OverlayInt + From<i16>>(rt: &impl Abort, alloc: Global) -> Result<(), Fail> {
    let mut overlay: StringOverlay<I, Global> = StringOverlay::new(alloc, 0)?;
    let path = contour_of::<I>(alloc, &[(0, 0), (3, 1), (2, 2)])?;
    assert!(rt; in_range(&path));
    overlay.add_string_path(&path)?;
    overlay.add_string_contour(&path)?;
    Ok(())
}

// Each adder of a resource is granted.
fn sources<I: OverlayInt + From<i16>>(rt: &impl Abort, alloc: Global) -> Result<(), Fail> {
    let mut overlay: StringOverlay<I, Global> = StringOverlay::new(alloc, 0)?;
    let paths = shape_of::<I>(alloc, &[SQUARE, &[(0, 0), (3, 1)]])?;
    assert_in_range(rt, &paths);
    overlay.add_string_source(&paths)?;
    overlay.add_string_contour_source(&paths)?;
    Ok(())
}

// Each deprecated adder of contours and of paths is granted.
fn lists<I: OverlayInt + From<i16>>(rt: &impl Abort, alloc: Global) -> Result<(), Fail> {
    let mut overlay: StringOverlay<I, Global> = StringOverlay::new(alloc, 0)?;
    let paths = shape_of::<I>(alloc, &[SQUARE, &[(0, 0), (3, 1)]])?;
    assert_in_range(rt, &BorrowedContours { contours: &paths });
    overlay.add_shape_contours(&paths)?;
    overlay.add_string_paths(&paths)?;
    overlay.add_string_contours(&paths)?;
    Ok(())
}

// The deprecated adder of shapes is granted.
fn lists_of_shapes<I: OverlayInt + From<i16>>(rt: &impl Abort, alloc: Global) -> Result<(), Fail> {
    let mut overlay: StringOverlay<I, Global> = StringOverlay::new(alloc, 0)?;
    let mut shapes: IntShapes<I, Global> = Vec::new(alloc);
    shapes.push(shape_of::<I>(alloc, &[SQUARE, &[(0, 0), (3, 1)]])?)?;
    let borrowed = BorrowedShapes { shapes: &shapes };
    assert_in_range(rt, &borrowed);
    overlay.add_shapes(borrowed.shapes)?;
    Ok(())
}

// Tests whether a builder that is made from a contour has the default options.
fn has_contour<I: OverlayInt + From<i16>>(rt: &impl Abort, alloc: Global) -> Result<bool, Fail> {
    let contour = contour_of::<I>(alloc, SQUARE)?;
    assert!(rt; in_range(&contour));
    Ok(
        !StringOverlay::with_shape_contour(alloc, &contour)?
            .options
            .ogc,
    )
}

// Tests whether a builder made from several contours has the default options.
fn has_contours<I: OverlayInt + From<i16>>(rt: &impl Abort, alloc: Global) -> Result<bool, Fail> {
    let shape = shape_of::<I>(alloc, &[SQUARE])?;
    assert_in_range(rt, &BorrowedContours { contours: &shape });
    Ok(
        !StringOverlay::with_shape_contours(alloc, &shape)?
            .options
            .ogc,
    )
}

// Tests whether a builder made from a shape has the default options.
fn has_one_shape<I: OverlayInt + From<i16>>(rt: &impl Abort, alloc: Global) -> Result<bool, Fail> {
    let shape = shape_of::<I>(alloc, &[SQUARE])?;
    assert_in_range(rt, &BorrowedContours { contours: &shape });
    Ok(!StringOverlay::with_shape(alloc, &shape)?.options.ogc)
}

// Tests whether a builder made from several shapes has the default options.
fn has_shapes<I: OverlayInt + From<i16>>(rt: &impl Abort, alloc: Global) -> Result<bool, Fail> {
    let mut shapes: IntShapes<I, Global> = Vec::new(alloc);
    shapes.push(shape_of::<I>(alloc, &[SQUARE])?)?;
    let borrowed = BorrowedShapes { shapes: &shapes };
    assert_in_range(rt, &borrowed);
    Ok(
        !StringOverlay::with_shapes(alloc, borrowed.shapes)?
            .options
            .ogc,
    )
}

// Each deprecated constructor is granted.
fn with_lists<I: OverlayInt + From<i16>>(rt: &impl Abort, alloc: Global) -> Result<(), Fail> {
    assert!(rt; has_contour::<I>(rt, alloc)?);
    assert!(rt; has_contours::<I>(rt, alloc)?);
    assert!(rt; has_one_shape::<I>(rt, alloc)?);
    assert!(rt; has_shapes::<I>(rt, alloc)?);
    Ok(())
}

// All of these, at a coordinate type.
fn calls<I: OverlayInt + From<i16>>(rt: &impl Abort, alloc: Global) -> Result<(), Fail> {
    constructors::<I>(rt, alloc)?;
    shapes::<I>(rt, alloc)?;
    lines::<I>(rt, alloc)?;
    strings::<I>(rt, alloc)?;
    sources::<I>(rt, alloc)?;
    lists::<I>(rt, alloc)?;
    lists_of_shapes::<I>(rt, alloc)?;
    with_lists::<I>(rt, alloc)
}

#[test]
fn builders_for_strings(rt: HostRuntime) -> Result<(), Fail> {
    calls::<i16>(&rt, rt.alloc())?;
    calls::<i32>(&rt, rt.alloc())?;
    calls::<i64>(&rt, rt.alloc())
}
