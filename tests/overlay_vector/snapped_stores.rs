//! Calls on data counted in the builder's store under snap rounding, after each call, at each coordinate type.

use crate::colour::{Calls, Colour};
use crate::counted::calls;
use crate::edges::{Place, add, add_contour, add_each, edge_of};
use crate::solvers::{FIRST, SECOND};
use overlay_geom::fill_rule::FillRule;
use overlay_geom::integer::OverlayInt;
use overlay_geom::overlay_rule::OverlayRule;
use overlay_geom::solver::Solver;
use overlay_vector::edge_overlay::{EdgeOverlay, ShapeType};
use std::alloc::Global;
use std::process::Abort;
use std::test::Fail;

// An empty builder that snaps, whose store has counted calls before.
fn snapping<I: OverlayInt>(alloc: Global) -> Result<EdgeOverlay<I, Colour, Global>, Fail> {
    let mut overlay = EdgeOverlay::new(alloc, 8)?;
    overlay.solver = Solver::SNAPPED;
    *overlay.data_store_mut() = calls(10, 20, 30);
    Ok(overlay)
}

// The needles, the first edge by edge and the second in one call; one edge of the first and two of the second are held
// reversed.
fn needles<I: OverlayInt + From<i16>>(
    rt: &impl Abort,
    alloc: Global,
) -> Result<EdgeOverlay<I, Colour, Global>, Fail> {
    let mut overlay = snapping::<I>(alloc)?;
    add_contour(rt, &mut overlay, &FIRST, Colour::Red, ShapeType::Clip)?;
    assert!(rt; *overlay.data_store() == calls(10, 20, 31));
    let [from, top, to] = SECOND;
    let green = [
        edge_of(from, top, Colour::Green),
        edge_of(top, to, Colour::Green),
        edge_of(to, from, Colour::Green),
    ];
    add_each(rt, &mut overlay, &green)?;
    assert!(rt; *overlay.data_store() == calls(10, 20, 33));
    Ok(overlay)
}

// The crossings of their long sides round to (0, 65), by hand. One long side is led through one hot point, and three
// through two: 11 pieces, of which four run up the height from 65 to 67, against their edges. Four pieces from there to
// 66 become one, and so do two above and two below. Of the five edges round the union two are walked from their larger
// ends.
const ARRANGED: (u32, u32, u32) = (15, 31, 37);

// A store that has counted the arrangement of the needles, and walks round their union.
fn walked(walks: u32) -> Calls {
    let (merges, splits, reverses) = ARRANGED;
    calls(merges, splits, reverses + 2 * walks)
}

// Each call reads and writes the builder's store where meeting points are rounded.
fn rounded<I: OverlayInt + From<i16>>(rt: &impl Abort, alloc: Global) -> Result<(), Fail> {
    let mut overlay = needles::<I>(rt, alloc)?;
    overlay.build_vectors(OverlayRule::Union, FillRule::NonZero)?;
    assert!(rt; *overlay.data_store() == walked(0));
    assert!(rt; overlay.is_balanced());
    overlay.build_vector_shapes(OverlayRule::Union, FillRule::NonZero)?;
    assert!(rt; overlay.into_data_store() == walked(1));
    let mut overlay = needles::<I>(rt, alloc)?;
    assert!(rt; overlay.is_balanced());
    overlay.build_vector_shapes(OverlayRule::Union, FillRule::NonZero)?;
    assert!(rt; *overlay.data_store() == walked(1));
    assert!(rt; overlay.is_balanced());
    overlay.build_vector_shapes(OverlayRule::Union, FillRule::NonZero)?;
    assert!(rt; *overlay.data_store() == walked(2));
    overlay.build_vectors(OverlayRule::Union, FillRule::NonZero)?;
    assert!(rt; overlay.into_data_store() == walked(2));
    Ok(())
}

// A red and a green square that overlap: one edge of each is held reversed by `x`, and one by `y`.
fn squares<I: OverlayInt + From<i16>>(
    rt: &impl Abort,
    alloc: Global,
) -> Result<EdgeOverlay<I, Colour, Global>, Fail> {
    let mut overlay = snapping::<I>(alloc)?;
    let red: [Place; 4] = [(0, 0), (4, 0), (4, 4), (0, 4)];
    let green: [Place; 4] = [(2, 0), (6, 0), (6, 4), (2, 4)];
    add_contour(rt, &mut overlay, &red, Colour::Red, ShapeType::Subject)?;
    add_contour(rt, &mut overlay, &green, Colour::Green, ShapeType::Clip)?;
    assert!(rt; *overlay.data_store() == calls(10, 20, 34));
    Ok(overlay)
}

// Where all meeting points are whole: four edges are cut in two, and two pairs of pieces merged; of the eight edges
// round the union four are walked from their larger ends.
fn whole<I: OverlayInt + From<i16>>(rt: &impl Abort, alloc: Global) -> Result<(), Fail> {
    let mut overlay = squares::<I>(rt, alloc)?;
    overlay.build_vectors(OverlayRule::Union, FillRule::NonZero)?;
    assert!(rt; overlay.into_data_store() == calls(12, 28, 34));
    let mut overlay = squares::<I>(rt, alloc)?;
    assert!(rt; overlay.is_balanced());
    overlay.build_vector_shapes(OverlayRule::Union, FillRule::NonZero)?;
    assert!(rt; overlay.into_data_store() == calls(12, 28, 38));
    Ok(())
}

// Two equal edges that meet in ends alone are merged, and nothing is cut.
fn settled<I: OverlayInt + From<i16>>(rt: &impl Abort, alloc: Global) -> Result<(), Fail> {
    let mut overlay = snapping::<I>(alloc)?;
    for colour in [Colour::Red, Colour::Green] {
        add(
            rt,
            &mut overlay,
            ((4, 0), (0, 0)),
            colour,
            ShapeType::Subject,
        )?;
    }
    assert!(rt; *overlay.data_store() == calls(10, 20, 32));
    overlay.build_vectors(OverlayRule::Subject, FillRule::NonZero)?;
    assert!(rt; overlay.into_data_store() == calls(11, 20, 32));
    Ok(())
}

#[test]
fn a_store_goes_through_calls_that_round(rt: HostRuntime) -> Result<(), Fail> {
    rounded::<i16>(&rt, rt.alloc())?;
    rounded::<i32>(&rt, rt.alloc())?;
    rounded::<i64>(&rt, rt.alloc())
}

#[test]
fn a_store_goes_through_snapped_calls_that_round_nothing(rt: HostRuntime) -> Result<(), Fail> {
    whole::<i16>(&rt, rt.alloc())?;
    whole::<i32>(&rt, rt.alloc())?;
    whole::<i64>(&rt, rt.alloc())
}

#[test]
fn a_store_goes_through_snapped_calls_that_cut_nothing(rt: HostRuntime) -> Result<(), Fail> {
    settled::<i16>(&rt, rt.alloc())?;
    settled::<i32>(&rt, rt.alloc())?;
    settled::<i64>(&rt, rt.alloc())
}
