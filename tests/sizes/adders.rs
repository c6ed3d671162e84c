//! Adders and constructors of `Overlay`: each gives as many edges as its contours have.

use crate::figures::{COUNT, comb, coordinate, flat_squares, lone_squares, point, squares};
use i_overlay::fill_rule::FillRule;
use i_overlay::overlay::{IntOverlayOptions, Overlay, ShapeType};
use i_overlay::solver::Solver;
use overlay_geom::error::OverlayError;
use std::alloc::Global;
use std::process::Abort;
use std::test::Fail;

// Number of edges of the squares, and of the comb.
const EDGES: usize = 4 * COUNT;

const SUBJECT: ShapeType = ShapeType::Subject;

// Number of edges of the builder.
fn edge_count(mut overlay: Overlay<i32, Global>) -> Result<usize, OverlayError> {
    Ok(overlay.build_separate_vectors(FillRule::NonZero)?.len())
}

// Number of edges that a call adds to an empty builder.
fn added<C: FnOnce(&mut Overlay<i32, Global>) -> Result<(), OverlayError> + Drop>(
    alloc: Global,
    add: C,
) -> Result<usize, Fail> {
    let mut overlay = Overlay::new(alloc, 0)?;
    add(&mut overlay)?;
    Ok(edge_count(overlay)?)
}

#[test]
fn adders(rt: HostRuntime) -> Result<(), Fail> {
    let alloc = rt.alloc();
    let (one, shape) = (comb(alloc)?, squares(alloc, 0, 4)?);
    let (shapes, buffer) = (lone_squares(alloc, 0, 4)?, flat_squares(alloc, 0, 4)?);
    let counts = [
        added(alloc, |it| it.add_contour(&one, SUBJECT))?,
        added(alloc, |it| it.add_path_iter(one.iter().copied(), SUBJECT))?,
        added(alloc, |it| it.add_source(&shape, SUBJECT))?,
        added(alloc, |it| it.add_source(&shapes, SUBJECT))?,
        added(alloc, |it| it.add_source(&buffer, SUBJECT))?,
        added(alloc, |it| it.add_contours(&shape, SUBJECT))?,
        added(alloc, |it| it.add_shape(&shape, SUBJECT))?,
        added(alloc, |it| it.add_shapes(&shapes, SUBJECT))?,
        added(alloc, |it| it.add_flat_buffer(&buffer, SUBJECT))?,
        added(alloc, |it| it.reinit_with_subj(&shape))?,
    ];
    for count in counts {
        assert!(&rt; count == EDGES, "{count} edges");
    }
    let moved = squares(alloc, 5, 4)?;
    let count = added(alloc, |it| it.reinit_with_subj_and_clip(&shape, &moved))?;
    assert!(&rt; count == 2 * EDGES, "{count} edges");
    Ok(())
}

#[test]
fn constructors(rt: HostRuntime) -> Result<(), Fail> {
    let alloc = rt.alloc();
    let (options, solver) = (IntOverlayOptions::default(), Solver::SNAPPED);
    let (subj, clip) = (squares(alloc, 0, 4)?, squares(alloc, 5, 4)?);
    let (alone, others) = (lone_squares(alloc, 0, 4)?, lone_squares(alloc, 5, 4)?);
    let mut roomy = Overlay::new_custom(alloc, EDGES, options, solver)?;
    roomy.add_contours(&subj, SUBJECT)?;
    assert!(&rt; edge_count(roomy)? == EDGES);
    let one = edge_count(Overlay::from_subj(alloc, &subj)?)?;
    let custom = Overlay::from_subj_custom(alloc, &subj, options, solver)?;
    assert!(&rt; one == EDGES && edge_count(custom)? == EDGES);
    let counts = [
        edge_count(Overlay::from_subj_and_clip(alloc, &subj, &clip)?)?,
        edge_count(Overlay::from_subj_and_clip(alloc, &alone, &others)?)?,
        edge_count(Overlay::from_subj_and_clip_custom(alloc, &subj, &clip, options, solver)?)?,
        edge_count(Overlay::with_contours(alloc, &subj, &clip)?)?,
        edge_count(Overlay::with_contours_custom(alloc, &subj, &clip, options, solver)?)?,
        edge_count(Overlay::with_shapes(alloc, &alone, &others)?)?,
        edge_count(Overlay::with_shapes_options(alloc, &alone, &others, options, solver)?)?,
    ];
    for count in counts {
        assert!(&rt; count == 2 * EDGES, "{count} edges");
    }
    Ok(())
}

// The comb lies in the square of the clip.
#[test]
fn constructors_of_one_contour(rt: HostRuntime) -> Result<(), Fail> {
    let alloc = rt.alloc();
    let (options, solver) = (IntOverlayOptions::default(), Solver::SNAPPED);
    let one = comb(alloc)?;
    let far = 4 * coordinate(COUNT);
    let round = [
        point(-9, -9),
        point(far, -9),
        point(far, far),
        point(-9, far),
    ];
    let counts = [
        edge_count(Overlay::with_contour(alloc, &one, &round)?)?,
        edge_count(Overlay::with_contour_custom(alloc, &one, &round, options, solver)?)?,
    ];
    for count in counts {
        assert!(&rt; count == EDGES + 4, "{count} edges");
    }
    Ok(())
}
