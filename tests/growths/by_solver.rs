//! Calls that leave no builder and take the solver: nothing of the caller's is changed.

use crate::figures::{PATHS, Width, square, squares};
use crate::one_call::{INSIDE, RULE, count_of};
use crate::refusals::{Memory, Trial};
use crate::strings::{bar_at, bars, lines, plate};
use i_overlay::i_shape::int::path::PathRef;
use i_overlay::i_shape::int::shape::IntContour;
use i_overlay::overlay::IntOverlayOptions;
use i_overlay::overlay_rule::OverlayRule;
use i_overlay::relate::IntRelate;
use i_overlay::simplify::Simplify;
use i_overlay::single::SingleIntOverlay;
use i_overlay::solver::Solver;
use i_overlay::string::clip::IntClip;
use i_overlay::string::slice::IntSlice;
use overlay_geom::resource::IntShapeResource;
use overlay_tiles::grid::Grid;
use overlay_tiles::slice::slice_by_grid_with_solver;
use std::process::Abort;
use std::test::Fail;

const SNAPPED: Solver = Solver::SNAPPED;

fn check_relate<I: Width>(trial: &Trial<'_, impl Abort>) -> Result<(), Fail> {
    let memory = trial.memory;
    let (wide, narrow) = (square::<I>(0, 4), square::<I>(1, 2));
    let (subj, clip) = (PathRef::new(&wide), PathRef::new(&narrow));
    let told = [
        trial.refuse_call("IntRelate::intersects_with_solver", || {
            subj.intersects_with_solver(memory, &clip, SNAPPED)
        })?,
        trial.refuse_call("IntRelate::interiors_intersect_with_solver", || {
            subj.interiors_intersect_with_solver(memory, &clip, SNAPPED)
        })?,
        trial.refuse_call("IntRelate::touches_with_solver", || {
            subj.touches_with_solver(memory, &clip, SNAPPED)
        })?,
        trial.refuse_call("IntRelate::point_intersects_with_solver", || {
            subj.point_intersects_with_solver(memory, &clip, SNAPPED)
        })?,
        trial.refuse_call("IntRelate::within_with_solver", || {
            subj.within_with_solver(memory, &clip, SNAPPED)
        })?,
        trial.refuse_call("IntRelate::disjoint_with_solver", || {
            subj.disjoint_with_solver(memory, &clip, SNAPPED)
        })?,
        trial.refuse_call("IntRelate::covers_with_solver", || {
            subj.covers_with_solver(memory, &clip, SNAPPED)
        })?,
    ];
    assert!(trial.rt; told == [true, true, false, false, false, false, true]);
    Ok(())
}

#[test]
fn relations_by_snap_rounding(rt: HostRuntime) -> Result<(), Fail> {
    at_a_width!(rt, check_relate)
}

fn check_overlays<I: Width>(trial: &Trial<'_, impl Abort>) -> Result<(), Fail> {
    let memory = trial.memory;
    let shape = squares::<I>(memory, PATHS)?;
    let wide = square::<I>(0, 4);
    let one = PathRef::new(&wide);
    let counts = [
        count_of(trial, "SingleIntOverlay::overlay_with_solver", || {
            shape.overlay_with_solver(memory, &one, OverlayRule::Union, RULE, SNAPPED)
        })?,
        count_of(trial, "Simplify::simplify_with_solver", || {
            one.simplify_with_solver(memory, RULE, IntOverlayOptions::default(), SNAPPED)
        })?,
        count_of(trial, "Simplify::simplify_with_solver", || {
            shape.simplify_with_solver(memory, RULE, IntOverlayOptions::default(), SNAPPED)
        })?,
    ];
    assert!(trial.rt; counts == [PATHS + 1, 1, PATHS]);
    Ok(())
}

#[test]
fn overlays_by_snap_rounding(rt: HostRuntime) -> Result<(), Fail> {
    at_a_width!(rt, check_overlays)
}

fn check_clips<I: Width>(trial: &Trial<'_, impl Abort>) -> Result<(), Fail> {
    let memory = trial.memory;
    let (points, paths, lines) = (plate::<I>(), bars::<I>(memory)?, lines::<I>());
    let (shape, line) = (PathRef::new(&points), bar_at::<I>(0));
    let path: IntContour<I, Memory<'_>> = Vec::from_array(memory, line)?;
    let counts = [
        count_of(trial, "IntClip::clip_line_with_solver", || {
            shape.clip_line_with_solver(memory, line, RULE, INSIDE, SNAPPED)
        })?,
        count_of(trial, "IntClip::clip_path_with_solver", || {
            shape.clip_path_with_solver(memory, &path, RULE, INSIDE, SNAPPED)
        })?,
        count_of(trial, "IntClip::clip_lines_with_solver", || {
            shape.clip_lines_with_solver(memory, &lines, RULE, INSIDE, SNAPPED)
        })?,
        count_of(trial, "IntClip::clip_paths_with_solver", || {
            shape.clip_paths_with_solver(memory, &paths, RULE, INSIDE, SNAPPED)
        })?,
        count_of(trial, "IntClip::clip_source_with_solver", || {
            shape.clip_source_with_solver(memory, &paths, RULE, INSIDE, SNAPPED)
        })?,
        trial
            .refuse_call("IntClip::clip_source_flat", || {
                shape.clip_source_flat(memory, &paths, RULE, INSIDE, SNAPPED)
            })?
            .path_count(),
    ];
    assert!(trial.rt; counts == [1, 1, PATHS, PATHS, PATHS, PATHS]);
    Ok(())
}

#[test]
fn clips_by_snap_rounding(rt: HostRuntime) -> Result<(), Fail> {
    at_a_width!(rt, check_clips)
}

fn check_slices<I: Width>(trial: &Trial<'_, impl Abort>) -> Result<(), Fail> {
    let memory = trial.memory;
    let (points, paths, lines) = (plate::<I>(), bars::<I>(memory)?, lines::<I>());
    let (shape, line) = (PathRef::new(&points), bar_at::<I>(0));
    let path: IntContour<I, Memory<'_>> = Vec::from_array(memory, line)?;
    let counts = [
        count_of(trial, "IntSlice::slice_by_line_with_solver", || {
            shape.slice_by_line_with_solver(memory, line, RULE, SNAPPED)
        })?,
        count_of(trial, "IntSlice::slice_by_path_with_solver", || {
            shape.slice_by_path_with_solver(memory, &path, RULE, SNAPPED)
        })?,
        count_of(trial, "IntSlice::slice_by_lines_with_solver", || {
            shape.slice_by_lines_with_solver(memory, &lines, RULE, SNAPPED)
        })?,
        count_of(trial, "IntSlice::slice_by_paths_with_solver", || {
            shape.slice_by_paths_with_solver(memory, &paths, RULE, SNAPPED)
        })?,
        count_of(trial, "IntSlice::slice_by_source_with_solver", || {
            shape.slice_by_source_with_solver(memory, &paths, RULE, SNAPPED)
        })?,
    ];
    assert!(trial.rt; counts == [2, 2, PATHS + 1, PATHS + 1, PATHS + 1]);
    Ok(())
}

#[test]
fn slices_by_snap_rounding(rt: HostRuntime) -> Result<(), Fail> {
    at_a_width!(rt, check_slices)
}

fn check_tiles<I: Width>(trial: &Trial<'_, impl Abort>) -> Result<(), Fail> {
    let memory = trial.memory;
    let points = plate::<I>();
    let shape = PathRef::new(&points);
    let grid = Grid {
        width: I::from(2),
        height: I::from(4),
    };
    let count = count_of(trial, "overlay_tiles::slice_by_grid_with_solver", || {
        slice_by_grid_with_solver(memory, &shape, grid, RULE, SNAPPED)
    })?;
    assert!(trial.rt; count == 4 * 2);
    Ok(())
}

#[test]
fn tiles_by_snap_rounding(rt: HostRuntime) -> Result<(), Fail> {
    at_a_width!(rt, check_tiles)
}
