//! Clips, slices and overlays in one call.

use crate::figures::{COUNT, ROWS, are_squares, comb, comb_of, coordinate, point, squares};
use crate::lines::{
    INSIDE, RULE, are_flat_parts, are_parts, are_strips, area_two, lines, paths, plate, zigzag,
};
use i_overlay::i_shape::int::path::PathRef;
use i_overlay::overlay_rule::OverlayRule;
use i_overlay::single::SingleIntOverlay;
use i_overlay::solver::Solver;
use i_overlay::string::clip::{ClipRule, IntClip};
use i_overlay::string::slice::IntSlice;
use std::process::Abort;
use std::test::Fail;

#[test]
fn an_overlay(rt: HostRuntime) -> Result<(), Fail> {
    let alloc = rt.alloc();
    let (subj, clip) = (squares(alloc, 0, 4)?, squares(alloc, 2, 4)?);
    let rule = OverlayRule::Intersect;
    let common = subj.overlay(alloc, &clip, rule, RULE)?;
    assert!(&rt; are_squares(&common, 2, 2));
    let common = subj.overlay_with_solver(alloc, &clip, rule, RULE, Solver::SNAPPED)?;
    assert!(&rt; are_squares(&common, 2, 2));
    Ok(())
}

// A line through all teeth of the comb: the parts in them, and those before, between and behind them.
#[test]
fn a_clip_by_a_comb(rt: HostRuntime) -> Result<(), Fail> {
    let alloc = rt.alloc();
    let contour = comb(alloc)?;
    let end = 4 * coordinate(COUNT) - 2;
    let line = [point(-1, 5), point(end + 1, 5)];
    let inside = PathRef::new(&contour).clip_line(alloc, line, RULE, INSIDE)?;
    assert!(&rt; inside.len() == COUNT);
    for number in 0..COUNT {
        let x = 4 * coordinate(number);
        assert!(&rt; inside[number].as_slice() == [point(x, 5), point(x + 2, 5)].as_slice());
    }
    let solver = Solver::SNAPPED;
    let snapped = PathRef::new(&contour).clip_line_with_solver(alloc, line, RULE, INSIDE, solver)?;
    assert!(&rt; snapped == inside);
    let outside = ClipRule {
        invert: true,
        boundary_included: false,
    };
    let gaps = PathRef::new(&contour).clip_line(alloc, line, RULE, outside)?;
    assert!(&rt; gaps.len() == COUNT + 1);
    assert!(&rt; gaps[0].as_slice() == [point(-1, 5), point(0, 5)].as_slice());
    for number in 1..COUNT {
        let x = 4 * coordinate(number);
        assert!(&rt; gaps[number].as_slice() == [point(x - 2, 5), point(x, 5)].as_slice());
    }
    assert!(&rt; gaps[COUNT].as_slice() == [point(end, 5), point(end + 1, 5)].as_slice());
    Ok(())
}

// A line through the lowest square of each column: of each of these two slices.
#[test]
fn slices_of_squares(rt: HostRuntime) -> Result<(), Fail> {
    let alloc = rt.alloc();
    let shape = squares(alloc, 0, 4)?;
    let columns = COUNT / ROWS;
    let line = [point(-1, 2), point(10 * coordinate(columns), 2)];
    let shapes = shape.slice_by_line(alloc, line, RULE)?;
    assert!(&rt; shapes.len() == COUNT + columns);
    let (mut whole, mut halves) = (0, 0);
    for slice in &shapes {
        assert!(&rt; slice.len() == 1 && slice[0].len() == 4);
        match area_two(&slice[0]) {
            32 => whole += 1,
            16 => halves += 1,
            _ => {}
        }
    }
    assert!(&rt; whole == COUNT - columns && halves == 2 * columns);
    let snapped = shape.slice_by_line_with_solver(alloc, line, RULE, Solver::SNAPPED)?;
    assert!(&rt; snapped == shapes);
    Ok(())
}

// That line slices the teeth off a comb.
#[test]
fn slices_of_a_comb(rt: HostRuntime) -> Result<(), Fail> {
    let alloc = rt.alloc();
    let (teeth, contour) = (500, comb_of(alloc, 500)?);
    let line = [point(-1, 5), point(4 * coordinate(teeth), 5)];
    let shapes = PathRef::new(&contour).slice_by_line(alloc, line, RULE)?;
    assert!(&rt; shapes.len() == teeth + 1);
    let (mut rectangles, mut points) = (0, 0);
    for shape in &shapes {
        assert!(&rt; shape.len() == 1);
        points += shape[0].len();
        if shape[0].len() == 4 {
            rectangles += 1;
        }
    }
    assert!(&rt; rectangles == teeth && points == 8 * teeth);
    Ok(())
}

#[test]
fn clips_by_a_plate(rt: HostRuntime) -> Result<(), Fail> {
    let alloc = rt.alloc();
    let points = plate();
    let shape = PathRef::new(&points);
    let (all, as_paths, one) = (lines(alloc)?, paths(alloc)?, zigzag(alloc)?);
    let snapped = Solver::SNAPPED;
    assert!(&rt; are_parts(&shape.clip_lines(alloc, &all, RULE, INSIDE)?));
    assert!(&rt; are_parts(&shape.clip_paths(alloc, &as_paths, RULE, INSIDE)?));
    assert!(&rt; are_parts(&shape.clip_source(alloc, &as_paths, RULE, INSIDE)?));
    assert!(&rt; are_parts(&shape.clip_path(alloc, &one, RULE, INSIDE)?));
    let found = shape.clip_lines_with_solver(alloc, &all, RULE, INSIDE, snapped)?;
    assert!(&rt; are_parts(&found));
    let found = shape.clip_paths_with_solver(alloc, &as_paths, RULE, INSIDE, snapped)?;
    assert!(&rt; are_parts(&found));
    let found = shape.clip_source_with_solver(alloc, &as_paths, RULE, INSIDE, snapped)?;
    assert!(&rt; are_parts(&found));
    let found = shape.clip_path_with_solver(alloc, &one, RULE, INSIDE, snapped)?;
    assert!(&rt; are_parts(&found));
    let found = shape.clip_source_flat(alloc, &as_paths, RULE, INSIDE, snapped)?;
    assert!(&rt; are_flat_parts(&found));
    Ok(())
}

#[test]
fn slices_of_a_plate(rt: HostRuntime) -> Result<(), Fail> {
    let alloc = rt.alloc();
    let points = plate();
    let shape = PathRef::new(&points);
    let (all, as_paths, one) = (lines(alloc)?, paths(alloc)?, zigzag(alloc)?);
    let snapped = Solver::SNAPPED;
    assert!(&rt; are_strips(&shape.slice_by_lines(alloc, &all, RULE)?));
    assert!(&rt; are_strips(&shape.slice_by_paths(alloc, &as_paths, RULE)?));
    assert!(&rt; are_strips(&shape.slice_by_source(alloc, &as_paths, RULE)?));
    assert!(&rt; are_strips(&shape.slice_by_path(alloc, &one, RULE)?));
    assert!(&rt; are_strips(&shape.slice_by_lines_with_solver(alloc, &all, RULE, snapped)?));
    assert!(&rt; are_strips(&shape.slice_by_paths_with_solver(alloc, &as_paths, RULE, snapped)?));
    assert!(&rt; are_strips(&shape.slice_by_source_with_solver(alloc, &as_paths, RULE, snapped)?));
    assert!(&rt; are_strips(&shape.slice_by_path_with_solver(alloc, &one, RULE, snapped)?));
    Ok(())
}
