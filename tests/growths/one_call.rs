//! Calls that leave no builder, and calls on what is the caller's: nothing of it is changed.

use crate::figures::{PATHS, Width, lone_squares, point, square, square_at, squares};
use crate::refusals::{Answer, Memory, Trial};
use crate::strings::{bar_at, bars, lines, plate};
use i_overlay::fill_rule::FillRule;
use i_overlay::i_float::int::point::IntPoint;
use i_overlay::i_shape::int::path::PathRef;
use i_overlay::i_shape::int::shape::IntContour;
use i_overlay::i_shape::source::int::resource::{BorrowedContours, BorrowedShapes};
use i_overlay::overlay::IntOverlayOptions;
use i_overlay::overlay_rule::OverlayRule;
use i_overlay::point_location::{IntPointContainment, PointLocation, PreparedShape};
use i_overlay::relate::IntRelate;
use i_overlay::simplify::Simplify;
use i_overlay::single::SingleIntOverlay;
use i_overlay::solver::Solver;
use i_overlay::string::clip::{ClipRule, IntClip};
use i_overlay::string::slice::IntSlice;
use i_overlay::vector::edge::{DataVectorEdge, DataVectorPath, ToPath};
use overlay_geom::error::OverlayError;
use overlay_tiles::grid::{Grid, grid_fits};
use overlay_tiles::lines::grid_lines;
use overlay_tiles::multiples::grid_multiples;
use overlay_tiles::slice::slice_by_grid;
use overlay_tiles::span::IntSpan;
use std::alloc::Allocator;
use std::process::Abort;
use std::test::Fail;

pub(crate) const RULE: FillRule = FillRule::NonZero;

pub(crate) const INSIDE: ClipRule = ClipRule {
    invert: false,
    boundary_included: false,
};

fn check_relate<I: Width>(trial: &Trial<'_, impl Abort>) -> Result<(), Fail> {
    let memory = trial.memory;
    let (wide, narrow) = (square::<I>(0, 4), square::<I>(1, 2));
    let (subj, clip) = (PathRef::new(&wide), PathRef::new(&narrow));
    let told = [
        trial.refuse_call("IntRelate::intersects", || subj.intersects(memory, &clip))?,
        trial.refuse_call("IntRelate::interiors_intersect", || {
            subj.interiors_intersect(memory, &clip)
        })?,
        trial.refuse_call("IntRelate::touches", || subj.touches(memory, &clip))?,
        trial.refuse_call("IntRelate::point_intersects", || {
            subj.point_intersects(memory, &clip)
        })?,
        trial.refuse_call("IntRelate::within", || subj.within(memory, &clip))?,
        trial.refuse_call("IntRelate::disjoint", || subj.disjoint(memory, &clip))?,
        trial.refuse_call("IntRelate::covers", || subj.covers(memory, &clip))?,
    ];
    assert!(trial.rt; told == [true, true, false, false, false, false, true]);
    Ok(())
}

#[test]
fn relations(rt: HostRuntime) -> Result<(), Fail> {
    at_a_width!(rt, check_relate)
}

fn check_overlays<I: Width>(trial: &Trial<'_, impl Abort>) -> Result<(), Fail> {
    let memory = trial.memory;
    let shape = squares::<I>(memory, PATHS)?;
    let wide = square::<I>(0, 4);
    let one = PathRef::new(&wide);
    let both = trial.refuse_call("SingleIntOverlay::overlay", || {
        shape.overlay(memory, &one, OverlayRule::Union, RULE)
    })?;
    assert!(trial.rt; both.len() == PATHS + 1);
    let options = IntOverlayOptions::default();
    let simple = trial.refuse_call("Simplify::simplify", || one.simplify(memory, RULE, options))?;
    assert!(trial.rt; simple.len() == 1);
    let simple = trial.refuse_call("Simplify::simplify", || {
        shape.simplify(memory, RULE, options)
    })?;
    assert!(trial.rt; simple.len() == PATHS);
    Ok(())
}

#[test]
fn overlays_in_one_call(rt: HostRuntime) -> Result<(), Fail> {
    at_a_width!(rt, check_overlays)
}

// Number of paths or shapes that a call gives, with its growths refused in turn.
pub(crate) fn count_of<
    T: Drop,
    A: Allocator,
    E: Into<OverlayError> + Drop,
    C: Fn() -> Result<Vec<T, A>, E> + Drop,
>(trial: &Trial<'_, impl Abort>, name: &str, call: C) -> Result<usize, Fail> {
    Ok(trial.refuse_call(name, call)?.len())
}

fn check_clips<I: Width>(trial: &Trial<'_, impl Abort>) -> Result<(), Fail> {
    let memory = trial.memory;
    let (points, paths, lines) = (plate::<I>(), bars::<I>(memory)?, lines::<I>());
    let (shape, line) = (PathRef::new(&points), bar_at::<I>(0));
    let path: IntContour<I, Memory<'_>> = Vec::from_array(memory, line)?;
    let counts = [
        count_of(trial, "IntClip::clip_line", || {
            shape.clip_line(memory, line, RULE, INSIDE)
        })?,
        count_of(trial, "IntClip::clip_path", || {
            shape.clip_path(memory, &path, RULE, INSIDE)
        })?,
        count_of(trial, "IntClip::clip_lines", || {
            shape.clip_lines(memory, &lines, RULE, INSIDE)
        })?,
        count_of(trial, "IntClip::clip_paths", || {
            shape.clip_paths(memory, &paths, RULE, INSIDE)
        })?,
        count_of(trial, "IntClip::clip_source", || {
            shape.clip_source(memory, &paths, RULE, INSIDE)
        })?,
    ];
    assert!(trial.rt; counts == [1, 1, PATHS, PATHS, PATHS]);
    Ok(())
}

#[test]
fn clips_in_one_call(rt: HostRuntime) -> Result<(), Fail> {
    at_a_width!(rt, check_clips)
}

fn check_slices<I: Width>(trial: &Trial<'_, impl Abort>) -> Result<(), Fail> {
    let memory = trial.memory;
    let (points, paths, lines) = (plate::<I>(), bars::<I>(memory)?, lines::<I>());
    let (shape, line) = (PathRef::new(&points), bar_at::<I>(0));
    let path: IntContour<I, Memory<'_>> = Vec::from_array(memory, line)?;
    let counts = [
        count_of(trial, "IntSlice::slice_by_line", || {
            shape.slice_by_line(memory, line, RULE)
        })?,
        count_of(trial, "IntSlice::slice_by_path", || {
            shape.slice_by_path(memory, &path, RULE)
        })?,
        count_of(trial, "IntSlice::slice_by_lines", || {
            shape.slice_by_lines(memory, &lines, RULE)
        })?,
        count_of(trial, "IntSlice::slice_by_paths", || {
            shape.slice_by_paths(memory, &paths, RULE)
        })?,
        count_of(trial, "IntSlice::slice_by_source", || {
            shape.slice_by_source(memory, &paths, RULE)
        })?,
    ];
    assert!(trial.rt; counts == [2, 2, PATHS + 1, PATHS + 1, PATHS + 1]);
    Ok(())
}

#[test]
fn slices_in_one_call(rt: HostRuntime) -> Result<(), Fail> {
    at_a_width!(rt, check_slices)
}

// Refuses the growths of both calls on `area`, for a point in the first square and a point outside.
fn locates<I: Width, T: IntPointContainment<I>>(
    trial: &Trial<'_, impl Abort>,
    names: [&str; 2],
    area: &T,
) -> Result<(), Fail> {
    let memory = trial.memory;
    let points: [IntPoint<I>; 2] = [point(11, 11), point(9, 9)];
    let inside = trial.refuse_call(names[0], || { area.contains_points(memory, &points) })?;
    assert!(trial.rt; &inside[..] == &[true, false][..]);
    let located = trial.refuse_call(names[1], || { area.locate_points(memory, &points) })?;
    assert!(trial.rt; &located[..] == &[PointLocation::Inside, PointLocation::Outside][..]);
    Ok(())
}

fn check_points<I: Width>(trial: &Trial<'_, impl Abort>) -> Result<(), Fail> {
    let memory = trial.memory;
    let contour: IntContour<I, Memory<'_>> = Vec::from_array(memory, square_at(0))?;
    let names = ["IntContour::contains_points", "IntContour::locate_points"];
    locates(trial, names, &contour)?;
    let names = ["PathRef::contains_points", "PathRef::locate_points"];
    locates(trial, names, &PathRef::new(&contour))?;
    let names = ["IntShape::contains_points", "IntShape::locate_points"];
    let shape = squares::<I>(memory, PATHS)?;
    locates(trial, names, &shape)?;
    let names = [
        "BorrowedContours::contains_points",
        "BorrowedContours::locate_points",
    ];
    locates(trial, names, &BorrowedContours { contours: &shape })?;
    let names = ["IntShapes::contains_points", "IntShapes::locate_points"];
    let shapes = lone_squares::<I>(memory)?;
    locates(trial, names, &shapes)?;
    let names = [
        "BorrowedShapes::contains_points",
        "BorrowedShapes::locate_points",
    ];
    locates(trial, names, &BorrowedShapes { shapes: &shapes })
}

fn check_prepared<I: Width>(trial: &Trial<'_, impl Abort>) -> Result<(), Fail> {
    let memory = trial.memory;
    let shape = squares::<I>(memory, PATHS)?;
    let prepared = trial.refuse_call("PreparedShape::new", || {
        PreparedShape::new(memory, &shape, RULE, Solver::SNAPPED)
    })?;
    assert!(trial.rt; prepared.locate(point(11, 11)) == PointLocation::Inside);
    assert!(trial.rt; prepared.locate(point(9, 9)) == PointLocation::Outside);
    Ok(())
}

#[test]
fn prepared_shapes(rt: HostRuntime) -> Result<(), Fail> {
    at_a_width!(rt, check_prepared)
}

#[test]
fn points_in_contours(rt: HostRuntime) -> Result<(), Fail> {
    at_a_width!(rt, check_points)
}

fn check_to_path<I: Width>(trial: &Trial<'_, impl Abort>) -> Result<(), Fail> {
    let memory = trial.memory;
    let [a, b, _, _] = square::<I>(0, 4);
    let edge = |a, b| DataVectorEdge {
        a,
        b,
        fill: 1,
        edge_data: (),
    };
    let path: DataVectorPath<I, (), Memory<'_>> = Vec::from_array(
        memory,
        [edge(a, b), edge(b, a)],
    )?;
    let points = trial.refuse_call("DataVectorPath::to_path", || path.to_path(memory))?;
    assert!(trial.rt; &points[..] == &[a, b][..]);
    Ok(())
}

#[test]
fn vectors_to_paths(rt: HostRuntime) -> Result<(), Fail> {
    at_a_width!(rt, check_to_path)
}

fn check_grid<I: Width>(trial: &Trial<'_, impl Abort>) -> Result<(), Fail> {
    let memory = trial.memory;
    let (points, span) = (
        plate::<I>(),
        IntSpan {
            least: I::from(0),
            greatest: I::from(100),
        },
    );
    let shape = PathRef::new(&points);
    let grid = Grid {
        width: I::from(2),
        height: I::from(4),
    };
    let counts = [
        count_of(trial, "overlay_tiles::grid_multiples", || {
            grid_multiples(memory, I::from(3), span)
        })?,
        trial
            .refuse_call(
                "overlay_tiles::grid_lines",
                || grid_lines(memory, &shape, grid),
            )?
            .len(),
        count_of(trial, "overlay_tiles::slice_by_grid", || {
            slice_by_grid(memory, &shape, grid, RULE)
        })?,
    ];
    assert!(trial.rt; trial.without_memory(|| grid_fits(&shape, grid)));
    assert!(trial.rt; counts == [33, 3 + 1, 4 * 2]);
    Ok(())
}

#[test]
fn lines_and_tiles_of_grids(rt: HostRuntime) -> Result<(), Fail> {
    at_a_width!(rt, check_grid)
}
