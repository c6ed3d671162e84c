//! Calls of a builder counted in its store: the earlier count, and the calls that each of them made.

use crate::colour::{Calls, Colour};
use crate::edges::{add_contour, add_each, edge_of};
use overlay_geom::fill_rule::FillRule;
use overlay_geom::integer::OverlayInt;
use overlay_geom::overlay_rule::OverlayRule;
use overlay_vector::edge_overlay::{EdgeOverlay, ShapeType};
use std::alloc::Global;
use std::process::Abort;
use std::test::Fail;

/// These numbers of calls.
pub(crate) fn calls(merges: u32, splits: u32, reverses: u32) -> Calls {
    Calls {
        merges,
        splits,
        reverses,
    }
}

// Two squares that overlap, the first in one call and the second edge by edge: two edges of each are held reversed.
fn added<I: OverlayInt + From<i16>>(
    rt: &impl Abort,
    alloc: Global,
) -> Result<EdgeOverlay<I, Colour, Global>, Fail> {
    let mut overlay: EdgeOverlay<I, Colour, Global> = EdgeOverlay::new(alloc, 8)?;
    *overlay.data_store_mut() = calls(10, 20, 30);
    let red = [
        edge_of((0, 0), (4, 0), Colour::Red),
        edge_of((4, 0), (4, 4), Colour::Red),
        edge_of((4, 4), (0, 4), Colour::Red),
        edge_of((0, 4), (0, 0), Colour::Red),
    ];
    add_each(rt, &mut overlay, &red)?;
    assert!(rt; *overlay.data_store() == calls(10, 20, 32));
    let green = [(2, 0), (6, 0), (6, 4), (2, 4)];
    add_contour(rt, &mut overlay, &green, Colour::Green, ShapeType::Clip)?;
    assert!(rt; *overlay.data_store() == calls(10, 20, 34));
    Ok(overlay)
}

// Four edges are cut in two, and two pairs of pieces merged; of the eight edges round the union four are walked from
// their larger ends.
fn asked<I: OverlayInt + From<i16>>(rt: &impl Abort, alloc: Global) -> Result<(), Fail> {
    let mut overlay = added::<I>(rt, alloc)?;
    overlay.build_vectors(OverlayRule::Union, FillRule::NonZero)?;
    assert!(rt; *overlay.data_store() == calls(12, 28, 34));
    assert!(rt; overlay.is_balanced());
    overlay.build_vector_shapes(OverlayRule::Union, FillRule::NonZero)?;
    assert!(rt; overlay.into_data_store() == calls(12, 28, 38));
    Ok(())
}

// The same by the call for shapes alone. Asked again, it cuts and merges nothing, and walks as before.
fn shaped<I: OverlayInt + From<i16>>(rt: &impl Abort, alloc: Global) -> Result<(), Fail> {
    let mut overlay = added::<I>(rt, alloc)?;
    overlay.build_vector_shapes(OverlayRule::Union, FillRule::NonZero)?;
    assert!(rt; *overlay.data_store() == calls(12, 28, 38));
    assert!(rt; overlay.is_balanced());
    overlay.build_vector_shapes(OverlayRule::Union, FillRule::NonZero)?;
    assert!(rt; overlay.into_data_store() == calls(12, 28, 42));
    Ok(())
}

#[test]
fn a_store_goes_through_all_calls(rt: HostRuntime) -> Result<(), Fail> {
    asked::<i16>(&rt, rt.alloc())?;
    asked::<i32>(&rt, rt.alloc())?;
    asked::<i64>(&rt, rt.alloc())
}

#[test]
fn a_store_that_is_asked_for_shapes_first(rt: HostRuntime) -> Result<(), Fail> {
    shaped::<i16>(&rt, rt.alloc())?;
    shaped::<i32>(&rt, rt.alloc())?;
    shaped::<i64>(&rt, rt.alloc())
}
