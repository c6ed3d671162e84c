//! Builders for strings: a plate, or squares, and lines across it.

use crate::figures::{COUNT, comb, lone_squares, squares};
use crate::lines::{
    INSIDE, RULE, are_flat_parts, are_parts, are_strips, line_at, lines, paths, plate, zigzag,
};
use i_overlay::i_shape::int::path::PathRef;
use i_overlay::i_shape::int::shape::IntShapes;
use i_overlay::overlay::IntOverlayOptions;
use i_overlay::solver::Solver;
use i_overlay::string::overlay::StringOverlay;
use i_overlay::string::rule::StringRule;
use overlay_geom::error::OverlayError;
use std::alloc::Global;
use std::process::Abort;
use std::test::Fail;

type Built = StringOverlay<i32, Global>;

// The slices of the shape, none where there is no edge.
fn slices(mut overlay: Built, alloc: Global) -> Result<IntShapes<i32, Global>, OverlayError> {
    match overlay.build_graph_view(RULE)? {
        Some(view) => view.extract_shapes(StringRule::Slice),
        None => Ok(Vec::new(alloc)),
    }
}

// The slices of a shape that a call adds.
fn of_shape<C: FnOnce(&mut Built) -> Result<(), OverlayError> + Drop>(
    alloc: Global,
    add: C,
) -> Result<IntShapes<i32, Global>, Fail> {
    let mut overlay = StringOverlay::new(alloc, 0)?;
    add(&mut overlay)?;
    Ok(slices(overlay, alloc)?)
}

#[test]
fn contours(rt: HostRuntime) -> Result<(), Fail> {
    let alloc = rt.alloc();
    let (one, shape, shapes) = (
        comb(alloc)?,
        squares(alloc, 0, 4)?,
        lone_squares(alloc, 0, 4)?,
    );
    let alone = [
        of_shape(alloc, |it| it.add_shape_contour(&one))?,
        of_shape(alloc, |it| it.add_shape_contour_iter(one.iter().copied()))?,
        slices(StringOverlay::with_shape_contour(alloc, &one)?, alloc)?,
    ];
    for found in alone {
        assert!(&rt; found.len() == 1 && found[0].len() == 1 && found[0][0].len() == 4 * COUNT);
    }
    let options = IntOverlayOptions::default();
    let mut roomy = StringOverlay::with_options(alloc, 4 * COUNT, options)?;
    roomy.add_shape_contours(&shape)?;
    let many = [
        slices(roomy, alloc)?,
        of_shape(alloc, |it| it.add_shape_source(&shape))?,
        of_shape(alloc, |it| it.add_shape_contours(&shape))?,
        of_shape(alloc, |it| it.add_shapes(&shapes))?,
        slices(StringOverlay::from_shape(alloc, &shape)?, alloc)?,
        slices(
            StringOverlay::from_shape_custom(alloc, &shape, options)?,
            alloc,
        )?,
        slices(StringOverlay::with_shape_contours(alloc, &shape)?, alloc)?,
        slices(StringOverlay::with_shape(alloc, &shape)?, alloc)?,
        slices(StringOverlay::with_shapes(alloc, &shapes)?, alloc)?,
    ];
    for found in many {
        assert!(&rt; found.len() == COUNT);
        for square in &found {
            assert!(&rt; square.len() == 1 && square[0].len() == 4);
        }
    }
    Ok(())
}

// The slices of the plate by strings that a call adds.
fn by_strings<C: FnOnce(&mut Built) -> Result<(), OverlayError> + Drop>(
    alloc: Global,
    add: C,
) -> Result<bool, Fail> {
    let found = of_shape(alloc, |it| {
        it.add_shape_contour(&plate())?;
        add(it)
    })?;
    Ok(are_strips(&found))
}

#[test]
fn strings_slice_a_plate(rt: HostRuntime) -> Result<(), Fail> {
    let alloc = rt.alloc();
    let (all, as_paths, one) = (lines(alloc)?, paths(alloc)?, zigzag(alloc)?);
    assert!(&rt; by_strings(alloc, |it| it.add_string_lines(&all))?);
    assert!(&rt; by_strings(alloc, |it| it.add_string_path(&one))?);
    assert!(&rt; by_strings(alloc, |it| it.add_string_paths(&as_paths))?);
    assert!(&rt; by_strings(alloc, |it| it.add_string_source(&as_paths))?);
    assert!(&rt; by_strings(alloc, |it| it.add_string_contours(&as_paths))?);
    assert!(&rt; by_strings(alloc, |it| it.add_string_contour_source(&as_paths))?);
    let each = by_strings(alloc, |it| {
        for number in 0..COUNT {
            it.add_string_line(line_at(number))?;
        }
        Ok(())
    })?;
    assert!(&rt; each);
    let each = by_strings(alloc, |it| {
        for number in 0..COUNT {
            it.add_string_contour(&line_at(number))?;
        }
        Ok(())
    })?;
    assert!(&rt; each);
    Ok(())
}

#[test]
fn a_plate_and_strings(rt: HostRuntime) -> Result<(), Fail> {
    let alloc = rt.alloc();
    let (points, as_paths) = (plate(), paths(alloc)?);
    let shape = PathRef::new(&points);
    let options = IntOverlayOptions::default();
    let found = slices(
        StringOverlay::from_shape_and_string(alloc, &shape, &as_paths)?,
        alloc,
    )?;
    assert!(&rt; are_strips(&found));
    let mut overlay = StringOverlay::from_shape_and_string_custom(
        alloc, &shape, &as_paths, options,
    )?;
    let Some(view) = overlay.build_graph_view_with_solver(RULE, Solver::SNAPPED)? else {
        assert!(&rt; false, "no view");
        return Ok(());
    };
    assert!(&rt; are_strips(&view.extract_shapes_custom(StringRule::Slice, options)?));
    Ok(())
}

#[test]
fn clipped_strings(rt: HostRuntime) -> Result<(), Fail> {
    let alloc = rt.alloc();
    let (points, as_paths) = (plate(), paths(alloc)?);
    let shape = PathRef::new(&points);
    let overlay = StringOverlay::from_shape_and_string(alloc, &shape, &as_paths)?;
    assert!(&rt; are_parts(&overlay.clip_string_lines(RULE, INSIDE)?));
    let overlay = StringOverlay::from_shape_and_string(alloc, &shape, &as_paths)?;
    let found = overlay.clip_string_lines_with_solver(RULE, INSIDE, Solver::SNAPPED)?;
    assert!(&rt; are_parts(&found));
    let overlay = StringOverlay::from_shape_and_string(alloc, &shape, &as_paths)?;
    let found = overlay.clip_string_lines_flat(RULE, INSIDE, Solver::SNAPPED)?;
    assert!(&rt; are_flat_parts(&found));
    Ok(())
}
