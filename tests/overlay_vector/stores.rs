//! Stores that are filled, and that keep their own refusals, at each coordinate type.

use crate::edges::{add, vector_of};
use crate::sources::{Grants, Sources};
use overlay_geom::error::OverlayError;
use overlay_geom::fill_rule::FillRule;
use overlay_geom::integer::OverlayInt;
use overlay_geom::overlay_rule::OverlayRule;
use overlay_order::vector::DataVectorEdge;
use overlay_vector::edge_overlay::{EdgeOverlay, ShapeType};
use std::alloc::Global;
use std::process::Abort;
use std::test::Fail;

// The data of an edge of these sources, on its way.
fn sources(bits: u8) -> Sources {
    Sources {
        bits,
        is_against: false,
    }
}

// Three edges of three sources that overlap, and a store that grants this number of unions.
fn three_edges<I: OverlayInt + From<i16>>(
    rt: &impl Abort,
    alloc: Global,
    granted: u32,
) -> Result<EdgeOverlay<I, Sources, Global>, OverlayError> {
    let mut overlay: EdgeOverlay<I, Sources, Global> = EdgeOverlay::new(alloc, 3)?;
    assert!(rt; overlay.data_store().left.is_none());
    overlay.data_store_mut().left = Some(granted);
    for (x, bits) in [(0, 1), (2, 2), (4, 4)] {
        let ends = ((x, 0), (x + 6, 0));
        add(rt, &mut overlay, ends, sources(bits), ShapeType::Subject)?;
    }
    Ok(overlay)
}

// Each piece has all its sources if all four unions are granted.
fn granted<I: OverlayInt + PartialEq + From<i16>>(
    rt: &impl Abort,
    alloc: Global,
) -> Result<(), Fail> {
    let mut overlay = three_edges::<I>(rt, alloc, 4)?;
    let vectors = overlay.build_vectors(OverlayRule::Subject, FillRule::NonZero)?;
    let wanted: [DataVectorEdge<I, Sources>; 5] = [
        vector_of((0, 0), (2, 0), 1, sources(1)),
        vector_of((2, 0), (4, 0), 1, sources(3)),
        vector_of((4, 0), (6, 0), 1, sources(7)),
        vector_of((6, 0), (8, 0), 1, sources(6)),
        vector_of((8, 0), (10, 0), 1, sources(4)),
    ];
    assert!(rt; vectors[..] == wanted[..]);
    let odd = overlay.build_vectors(OverlayRule::Subject, FillRule::EvenOdd)?;
    assert!(rt; odd[..] == [wanted[0], wanted[2], wanted[4]][..]);
    let grants = Grants {
        left: Some(0),
        refused: 0,
    };
    assert!(rt; overlay.into_data_store() == grants);
    Ok(())
}

// After three unions the store refuses the fourth, which the query doesn't see.
fn refused<I: OverlayInt + From<i16>>(rt: &impl Abort, alloc: Global) -> Result<(), Fail> {
    let mut overlay = three_edges::<I>(rt, alloc, 3)?;
    let vectors = overlay.build_vectors(OverlayRule::Subject, FillRule::NonZero)?;
    assert!(rt; vectors.len() == 5);
    let grants = Grants {
        left: Some(0),
        refused: 1,
    };
    assert!(rt; overlay.into_data_store() == grants);
    Ok(())
}

// The data of an edge that is added from its larger end is reversed.
fn against<I: OverlayInt + PartialEq + From<i16>>(
    rt: &impl Abort,
    alloc: Global,
) -> Result<(), Fail> {
    let mut overlay: EdgeOverlay<I, Sources, Global> = EdgeOverlay::new(alloc, 2)?;
    let along = ((0, 0), (4, 0));
    let back = ((4, 4), (0, 4));
    add(rt, &mut overlay, along, sources(1), ShapeType::Subject)?;
    add(rt, &mut overlay, back, sources(2), ShapeType::Subject)?;
    let vectors = overlay.build_vectors(OverlayRule::Subject, FillRule::NonZero)?;
    let reversed = Sources {
        bits: 2,
        is_against: true,
    };
    let wanted: [DataVectorEdge<I, Sources>; 2] = [
        vector_of((0, 0), (4, 0), 1, sources(1)),
        vector_of((0, 4), (4, 4), 2, reversed),
    ];
    assert!(rt; vectors[..] == wanted[..]);
    Ok(())
}

// All of these, at a coordinate type.
fn rows<I: OverlayInt + PartialEq + From<i16>>(rt: &impl Abort, alloc: Global) -> Result<(), Fail> {
    granted::<I>(rt, alloc)?;
    refused::<I>(rt, alloc)?;
    against::<I>(rt, alloc)
}

#[test]
fn stores_kept(rt: HostRuntime) -> Result<(), Fail> {
    rows::<i16>(&rt, rt.alloc())?;
    rows::<i32>(&rt, rt.alloc())?;
    rows::<i64>(&rt, rt.alloc())
}
