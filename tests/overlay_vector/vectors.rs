//! The selected edges with their filled sides and data, on worked rows, at each coordinate type.

use crate::colour::{Calls, Colour};
use crate::edges::{add, add_contour, vector_of};
use overlay_geom::fill_rule::FillRule;
use overlay_geom::integer::OverlayInt;
use overlay_geom::overlay_rule::OverlayRule;
use overlay_order::vector::DataVectorEdge;
use overlay_vector::edge_overlay::{EdgeOverlay, ShapeType};
use std::alloc::Global;
use std::process::Abort;
use std::test::Fail;

// The edges round a red and a green square that overlap, in order.
fn two_squares<I: OverlayInt + From<i16>>() -> [DataVectorEdge<I, Colour>; 8] {
    [
        vector_of((0, 0), (0, 4), 2, Colour::Red),
        vector_of((0, 0), (2, 0), 1, Colour::Red),
        vector_of((0, 4), (2, 4), 2, Colour::Red),
        vector_of((2, 0), (4, 0), 5, Colour::Undefined),
        vector_of((2, 4), (4, 4), 10, Colour::Undefined),
        vector_of((4, 0), (6, 0), 4, Colour::Green),
        vector_of((4, 4), (6, 4), 8, Colour::Green),
        vector_of((6, 0), (6, 4), 4, Colour::Green),
    ]
}

// Their union: edges of both have no colour.
fn union<I: OverlayInt + PartialEq + From<i16>>(
    rt: &impl Abort,
    alloc: Global,
) -> Result<(), Fail> {
    let mut overlay: EdgeOverlay<I, Colour, Global> = EdgeOverlay::new(alloc, 8)?;
    let red = [(0, 0), (4, 0), (4, 4), (0, 4)];
    let green = [(2, 0), (6, 0), (6, 4), (2, 4)];
    add_contour(rt, &mut overlay, &red, Colour::Red, ShapeType::Subject)?;
    add_contour(rt, &mut overlay, &green, Colour::Green, ShapeType::Clip)?;
    assert!(rt; overlay.is_balanced());
    let vectors = overlay.build_vectors(OverlayRule::Union, FillRule::NonZero)?;
    let wanted = two_squares::<I>();
    assert!(rt; vectors[..] == wanted[..]);
    let calls = Calls {
        merges: 2,
        splits: 8,
        reverses: 4,
    };
    assert!(rt; *overlay.data_store() == calls);
    intersection(rt, overlay, calls)
}

// Asked again for what both fill, nothing is cut or merged anew.
fn intersection<I: OverlayInt + PartialEq + From<i16>>(
    rt: &impl Abort,
    mut overlay: EdgeOverlay<I, Colour, Global>,
    calls: Calls,
) -> Result<(), Fail> {
    let vectors = overlay.build_vectors(OverlayRule::Intersect, FillRule::NonZero)?;
    let wanted: [DataVectorEdge<I, Colour>; 4] = [
        vector_of((2, 0), (2, 4), 11, Colour::Green),
        vector_of((2, 0), (4, 0), 5, Colour::Undefined),
        vector_of((2, 4), (4, 4), 10, Colour::Undefined),
        vector_of((4, 0), (4, 4), 13, Colour::Red),
    ];
    assert!(rt; vectors[..] == wanted[..]);
    assert!(rt; overlay.into_data_store() == calls);
    Ok(())
}

// A lone edge is filled above.
fn lone_edge<I: OverlayInt + PartialEq + From<i16>>(
    rt: &impl Abort,
    alloc: Global,
) -> Result<(), Fail> {
    let mut overlay: EdgeOverlay<I, Colour, Global> = EdgeOverlay::new(alloc, 1)?;
    add(
        rt,
        &mut overlay,
        ((0, 0), (1, 0)),
        Colour::Red,
        ShapeType::Subject,
    )?;
    assert!(rt; !overlay.is_balanced());
    let vectors = overlay.build_vectors(OverlayRule::Subject, FillRule::EvenOdd)?;
    let wanted: [DataVectorEdge<I, Colour>; 1] = [vector_of((0, 0), (1, 0), 1, Colour::Red)];
    assert!(rt; vectors[..] == wanted[..]);
    Ok(())
}

// All of these, at a coordinate type.
fn rows<I: OverlayInt + PartialEq + From<i16>>(rt: &impl Abort, alloc: Global) -> Result<(), Fail> {
    union::<I>(rt, alloc)?;
    lone_edge::<I>(rt, alloc)
}

#[test]
fn vectors_built(rt: HostRuntime) -> Result<(), Fail> {
    rows::<i16>(&rt, rt.alloc())?;
    rows::<i32>(&rt, rt.alloc())?;
    rows::<i64>(&rt, rt.alloc())
}
