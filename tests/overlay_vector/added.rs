//! Edges as they are held once added, at each coordinate type.

use crate::colour::{Calls, Colour};
use crate::edges::{add_each, edge_of, ends_in, point_of};
use overlay_geom::fill_rule::FillRule;
use overlay_geom::integer::OverlayInt;
use overlay_geom::overlay_rule::OverlayRule;
use overlay_vector::edge_overlay::EdgeOverlay;
use std::alloc::Global;
use std::process::Abort;
use std::test::Fail;

// Each edge is held from its smaller end, and equal points have no edge.
fn held<I: OverlayInt + PartialEq + From<i16>>(rt: &impl Abort, alloc: Global) -> Result<(), Fail> {
    let mut overlay: EdgeOverlay<I, Colour, Global> = EdgeOverlay::new(alloc, 0)?;
    assert!(rt; overlay.is_balanced());
    let edges = [
        edge_of::<I, Colour>((0, 0), (4, 4), Colour::Red),
        edge_of::<I, Colour>((3, 3), (3, 3), Colour::Red),
        edge_of::<I, Colour>((4, 0), (0, 4), Colour::Green),
    ];
    add_each(rt, &mut overlay, &edges)?;
    let ends = ends_in(alloc, &overlay)?;
    assert!(rt; ends.len() == 2);
    assert!(rt; ends[0] == [point_of((0, 0)), point_of((4, 4))]);
    assert!(rt; ends[1] == [point_of((0, 4)), point_of((4, 0))]);
    assert!(rt; overlay.data_store().reverses == 1);
    assert!(rt; !overlay.is_balanced());
    cut(rt, alloc, overlay)
}

// The two are cut where they cross, and their data is split.
fn cut<I: OverlayInt + PartialEq + From<i16>>(
    rt: &impl Abort,
    alloc: Global,
    mut overlay: EdgeOverlay<I, Colour, Global>,
) -> Result<(), Fail> {
    overlay.build_vectors(OverlayRule::Subject, FillRule::NonZero)?;
    let ends = ends_in(alloc, &overlay)?;
    assert!(rt; ends.len() == 4);
    assert!(rt; ends[0] == [point_of((0, 0)), point_of((2, 2))]);
    assert!(rt; ends[1] == [point_of((0, 4)), point_of((2, 2))]);
    assert!(rt; ends[2] == [point_of((2, 2)), point_of((4, 0))]);
    assert!(rt; ends[3] == [point_of((2, 2)), point_of((4, 4))]);
    let calls = Calls {
        merges: 0,
        splits: 4,
        reverses: 1,
    };
    assert!(rt; overlay.into_data_store() == calls);
    Ok(())
}

#[test]
fn edges_added(rt: HostRuntime) -> Result<(), Fail> {
    held::<i16>(&rt, rt.alloc())?;
    held::<i32>(&rt, rt.alloc())?;
    held::<i64>(&rt, rt.alloc())
}
