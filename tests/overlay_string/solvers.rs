//! A needle with a line along its long sides, which rounds do not settle, and snap rounding does. It tests each single
//! call, with and without a solver, and the builder's calls, at each coordinate type.

use crate::points::{are_shapes, line_of};
use overlay_builder::solver::Solver;
use overlay_geom::error::OverlayError;
use overlay_geom::fill_rule::FillRule;
use overlay_geom::flat::contours::FlatContoursBuffer;
use overlay_geom::integer::OverlayInt;
use overlay_geom::path::{IntLine, IntPath, IntShapes};
use overlay_geom::point::in_range;
use overlay_geom::resource::IntShapeResource;
use overlay_geom::resource::borrowed::BorrowedContours;
use overlay_string::clip::IntClip;
use overlay_string::clip_rule::ClipRule;
use overlay_string::lines::BorrowedLines;
use overlay_string::slice::IntSlice;
use overlay_string::string_overlay::StringOverlay;
use overlay_string::string_rule::StringRule;
use small_points::contours::{Points, assert_in_range, contour_of, shape_of};
use std::alloc::Global;
use std::process::Abort;
use std::test::Fail;

// The needle, and a line that crosses its left side so flatly that each round moves the crossing on by one unit.
const NEEDLE: Points<'static> = &[(2, 0), (0, 66), (2, -66)];

const LINE: Points<'static> = &[(1, 0), (0, 67)];

// By hand: both crossings of the line round to (0, 65), and the end (1, 0) of the line bends the left side. So the
// needle has four sides; one is the line from (1, 0) to (0, 65). The rest of the line lies outside.
const SLICES: &[&[Points<'static>]] = &[&[&[(0, 65), (1, 0), (2, -66), (2, 0)]]];

const SHARED: Points<'static> = &[(1, 0), (0, 65)];

// The parts inside, with the boundary and without.
const WITH_BOUNDARY: ClipRule = ClipRule {
    invert: false,
    boundary_included: true,
};

const WITHOUT: ClipRule = ClipRule {
    invert: false,
    boundary_included: false,
};

const RULE: FillRule = FillRule::NonZero;

// The answer of a clip of the line.
type Clipped<I> = Result<Vec<IntPath<I, Global>, Global>, OverlayError>;

// The answer of a slice of the needle.
type Sliced<I> = Result<IntShapes<I, Global>, OverlayError>;

// The needle, in range.
fn needle<I: OverlayInt + From<i16>>(
    rt: &impl Abort,
    alloc: Global,
) -> Result<IntPath<I, Global>, OverlayError> {
    let needle = contour_of::<I>(alloc, NEEDLE)?;
    assert_in_range(rt, &needle);
    Ok(needle)
}

// The line, in range.
fn line<I: OverlayInt + From<i16>>(rt: &impl Abort) -> IntLine<I> {
    let line: IntLine<I> = line_of(LINE[0], LINE[1]);
    assert!(rt; in_range(&line));
    line
}

// Returns whether the call was refused as not settled.
fn is_not_settled<T: Drop>(answer: Result<T, OverlayError>) -> bool {
    matches!(answer, Err(OverlayError::NotSettled))
}

// Tests whether what is left of the line is the part that the needle has as a side, or nothing.
fn is_clipped<I: OverlayInt + PartialEq + From<i16>>(
    alloc: Global,
    answer: Clipped<I>,
    rule: ClipRule,
) -> Result<bool, OverlayError> {
    let paths = answer?;
    if !rule.boundary_included {
        return Ok(paths.is_empty());
    }
    let shared = contour_of::<I>(alloc, SHARED)?;
    Ok(paths.len() == 1 && paths[0].as_slice() == shared.as_slice())
}

// Tests the same of paths in a single list.
fn is_clipped_flat<I: OverlayInt + PartialEq + From<i16>>(
    alloc: Global,
    answer: Result<FlatContoursBuffer<I, Global>, OverlayError>,
    rule: ClipRule,
) -> Result<bool, OverlayError> {
    let paths = answer?;
    if !rule.boundary_included {
        return Ok(paths.path_count() == 0);
    }
    let shared = contour_of::<I>(alloc, SHARED)?;
    Ok(paths.path_count() == 1 && paths.path(0) == shared.as_slice())
}

// The line is clipped by each call: rounds refuse, also as the default, and snap rounding answers.
fn clips<I: OverlayInt + PartialEq + From<i16>>(
    rt: &impl Abort,
    alloc: Global,
    rule: ClipRule,
) -> Result<(), Fail> {
    let shape = needle::<I>(rt, alloc)?;
    let line = line::<I>(rt);
    let refused = shape.clip_line(alloc, line, RULE, rule);
    assert!(rt; is_not_settled(refused));
    let refused = shape.clip_line_with_solver(alloc, line, RULE, rule, Solver::ABSOLUTE);
    assert!(rt; is_not_settled(refused));
    let snapped = shape.clip_line_with_solver(alloc, line, RULE, rule, Solver::SNAPPED);
    assert!(rt; is_clipped(alloc, snapped, rule)?);
    Ok(())
}

// Clips the line as one of several lines.
fn clips_lines<I: OverlayInt + PartialEq + From<i16>>(
    rt: &impl Abort,
    alloc: Global,
    rule: ClipRule,
) -> Result<(), Fail> {
    let shape = needle::<I>(rt, alloc)?;
    let lines = [line::<I>(rt)];
    let borrowed = BorrowedLines { lines: &lines };
    assert_in_range(rt, &borrowed);
    let refused = shape.clip_lines(alloc, borrowed.lines, RULE, rule);
    assert!(rt; is_not_settled(refused));
    let snapped = shape.clip_lines_with_solver(alloc, borrowed.lines, RULE, rule, Solver::SNAPPED);
    assert!(rt; is_clipped(alloc, snapped, rule)?);
    Ok(())
}

// As a path, in a list of paths, and as a resource.
fn clips_paths<I: OverlayInt + PartialEq + From<i16>>(
    rt: &impl Abort,
    alloc: Global,
    rule: ClipRule,
) -> Result<(), Fail> {
    let shape = needle::<I>(rt, alloc)?;
    let path = contour_of::<I>(alloc, LINE)?;
    assert!(rt; in_range(&path));
    let refused = shape.clip_path(alloc, &path, RULE, rule);
    assert!(rt; is_not_settled(refused));
    let snapped = shape.clip_path_with_solver(alloc, &path, RULE, rule, Solver::SNAPPED);
    assert!(rt; is_clipped(alloc, snapped, rule)?);
    let paths = shape_of::<I>(alloc, &[LINE])?;
    let borrowed = BorrowedContours { contours: &paths };
    assert_in_range(rt, &borrowed);
    let refused = shape.clip_paths(alloc, borrowed.contours, RULE, rule);
    assert!(rt; is_not_settled(refused));
    let snapped = shape.clip_paths_with_solver(
        alloc,
        borrowed.contours,
        RULE,
        rule,
        Solver::SNAPPED,
    );
    assert!(rt; is_clipped(alloc, snapped, rule)?);
    let refused = shape.clip_source(alloc, &borrowed, RULE, rule);
    assert!(rt; is_not_settled(refused));
    let snapped = shape.clip_source_with_solver(alloc, &borrowed, RULE, rule, Solver::SNAPPED);
    assert!(rt; is_clipped(alloc, snapped, rule)?);
    let refused = shape.clip_source_flat(alloc, &borrowed, RULE, rule, Solver::ABSOLUTE);
    assert!(rt; is_not_settled(refused));
    let snapped = shape.clip_source_flat(alloc, &borrowed, RULE, rule, Solver::SNAPPED);
    assert!(rt; is_clipped_flat(alloc, snapped, rule)?);
    Ok(())
}

// Tests whether the needle is cut into its single shape.
fn is_sliced<I: OverlayInt + PartialEq + From<i16>>(
    alloc: Global,
    answer: Sliced<I>,
) -> Result<bool, OverlayError> {
    let shapes = answer?;
    are_shapes(alloc, &shapes, SLICES)
}

// The needle is sliced by each call with a line.
fn slices<I: OverlayInt + PartialEq + From<i16>>(
    rt: &impl Abort,
    alloc: Global,
) -> Result<(), Fail> {
    let shape = needle::<I>(rt, alloc)?;
    let line = line::<I>(rt);
    assert!(rt; is_not_settled(shape.slice_by_line(alloc, line, RULE)));
    let refused = shape.slice_by_line_with_solver(alloc, line, RULE, Solver::ABSOLUTE);
    assert!(rt; is_not_settled(refused));
    let snapped = shape.slice_by_line_with_solver(alloc, line, RULE, Solver::SNAPPED);
    assert!(rt; is_sliced(alloc, snapped)?);
    let lines = [line];
    let borrowed = BorrowedLines { lines: &lines };
    assert_in_range(rt, &borrowed);
    assert!(rt; is_not_settled(shape.slice_by_lines(alloc, borrowed.lines, RULE)));
    let snapped = shape.slice_by_lines_with_solver(alloc, borrowed.lines, RULE, Solver::SNAPPED);
    assert!(rt; is_sliced(alloc, snapped)?);
    Ok(())
}

// Slices by each call with a path.
fn slices_by_paths<I: OverlayInt + PartialEq + From<i16>>(
    rt: &impl Abort,
    alloc: Global,
) -> Result<(), Fail> {
    let shape = needle::<I>(rt, alloc)?;
    let path = contour_of::<I>(alloc, LINE)?;
    assert!(rt; in_range(&path));
    assert!(rt; is_not_settled(shape.slice_by_path(alloc, &path, RULE)));
    let snapped = shape.slice_by_path_with_solver(alloc, &path, RULE, Solver::SNAPPED);
    assert!(rt; is_sliced(alloc, snapped)?);
    let paths = shape_of::<I>(alloc, &[LINE])?;
    let borrowed = BorrowedContours { contours: &paths };
    assert_in_range(rt, &borrowed);
    assert!(rt; is_not_settled(shape.slice_by_paths(alloc, borrowed.contours, RULE)));
    let snapped = shape.slice_by_paths_with_solver(alloc, borrowed.contours, RULE, Solver::SNAPPED);
    assert!(rt; is_sliced(alloc, snapped)?);
    assert!(rt; is_not_settled(shape.slice_by_source(alloc, &borrowed, RULE)));
    let snapped = shape.slice_by_source_with_solver(alloc, &borrowed, RULE, Solver::SNAPPED);
    assert!(rt; is_sliced(alloc, snapped)?);
    Ok(())
}

// A builder with the needle and the line.
fn builder<I: OverlayInt + From<i16>>(
    rt: &impl Abort,
    alloc: Global,
) -> Result<StringOverlay<I, Global>, OverlayError> {
    let shape = needle::<I>(rt, alloc)?;
    let string = contour_of::<I>(alloc, LINE)?;
    assert_in_range(rt, &string);
    StringOverlay::from_shape_and_string(alloc, &shape, &string)
}

// The builder clips and shows by a solver.
fn built<I: OverlayInt + PartialEq + From<i16>>(
    rt: &impl Abort,
    alloc: Global,
) -> Result<(), Fail> {
    let refused = builder::<I>(rt, alloc)?.clip_string_lines(RULE, WITH_BOUNDARY);
    assert!(rt; is_not_settled(refused));
    let overlay = builder::<I>(rt, alloc)?;
    let snapped = overlay.clip_string_lines_with_solver(RULE, WITH_BOUNDARY, Solver::SNAPPED);
    assert!(rt; is_clipped(alloc, snapped, WITH_BOUNDARY)?);
    let overlay = builder::<I>(rt, alloc)?;
    let snapped = overlay.clip_string_lines_flat(RULE, WITH_BOUNDARY, Solver::SNAPPED);
    assert!(rt; is_clipped_flat(alloc, snapped, WITH_BOUNDARY)?);
    let mut overlay = builder::<I>(rt, alloc)?;
    assert!(rt; is_not_settled(overlay.build_graph_view(RULE)));
    let mut overlay = builder::<I>(rt, alloc)?;
    let Some(view) = overlay.build_graph_view_with_solver(RULE, Solver::SNAPPED)? else {
        assert!(rt; false, "no view");
        return Ok(());
    };
    assert!(rt; is_sliced(alloc, view.extract_shapes(StringRule::Slice))?);
    Ok(())
}

#[test]
fn snapped_lines_are_clipped(rt: HostRuntime) -> Result<(), Fail> {
    clips::<i16>(&rt, rt.alloc(), WITH_BOUNDARY)?;
    clips::<i32>(&rt, rt.alloc(), WITH_BOUNDARY)?;
    clips::<i64>(&rt, rt.alloc(), WITH_BOUNDARY)?;
    clips::<i32>(&rt, rt.alloc(), WITHOUT)
}

#[test]
fn snapped_lines_of_a_list_are_clipped(rt: HostRuntime) -> Result<(), Fail> {
    clips_lines::<i16>(&rt, rt.alloc(), WITH_BOUNDARY)?;
    clips_lines::<i32>(&rt, rt.alloc(), WITH_BOUNDARY)?;
    clips_lines::<i64>(&rt, rt.alloc(), WITH_BOUNDARY)?;
    clips_lines::<i32>(&rt, rt.alloc(), WITHOUT)
}

#[test]
fn snapped_paths_are_clipped(rt: HostRuntime) -> Result<(), Fail> {
    clips_paths::<i16>(&rt, rt.alloc(), WITH_BOUNDARY)?;
    clips_paths::<i32>(&rt, rt.alloc(), WITH_BOUNDARY)?;
    clips_paths::<i64>(&rt, rt.alloc(), WITH_BOUNDARY)?;
    clips_paths::<i32>(&rt, rt.alloc(), WITHOUT)
}

#[test]
fn snapped_lines_slice(rt: HostRuntime) -> Result<(), Fail> {
    slices::<i16>(&rt, rt.alloc())?;
    slices::<i32>(&rt, rt.alloc())?;
    slices::<i64>(&rt, rt.alloc())
}

#[test]
fn snapped_paths_slice(rt: HostRuntime) -> Result<(), Fail> {
    slices_by_paths::<i16>(&rt, rt.alloc())?;
    slices_by_paths::<i32>(&rt, rt.alloc())?;
    slices_by_paths::<i64>(&rt, rt.alloc())
}

#[test]
fn builders_with_strings_snap(rt: HostRuntime) -> Result<(), Fail> {
    built::<i16>(&rt, rt.alloc())?;
    built::<i32>(&rt, rt.alloc())?;
    built::<i64>(&rt, rt.alloc())
}
