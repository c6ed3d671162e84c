//! The roads round two blocks that overlap, at each coordinate type.

use crate::places::{Place, point_of};
use callers::roads::{Road, add_piece, no_roads, roads_along, ways_round};
use overlay_geom::error::OverlayError;
use overlay_geom::integer::OverlayInt;
use overlay_order::vector::DataVectorEdge;
use overlay_vector::edge_overlay::EdgeOverlay;
use overlay_vector::input_edge::InputEdge;
use small_points::contours::is_round;
use std::alloc::Global;
use std::process::Abort;
use std::test::Fail;

// The pieces round two blocks that overlap.
const PIECES: [(Place, Place, u32); 8] = [
    ((0, 0), (4, 0), 7),
    ((4, 0), (4, 4), 5),
    ((4, 4), (0, 4), 3),
    ((0, 4), (0, 0), 2),
    ((2, 0), (6, 0), 4),
    ((6, 0), (6, 4), 6),
    ((6, 4), (2, 4), 9),
    ((2, 4), (2, 0), 8),
];

// A builder with these pieces.
fn with_pieces<I: OverlayInt + From<i16>>(
    rt: &impl Abort,
    alloc: Global,
    pieces: &[(Place, Place, u32)],
) -> Result<EdgeOverlay<I, Road, Global>, OverlayError> {
    let mut overlay = no_roads(alloc)?;
    for piece in pieces {
        let edge: InputEdge<I, Road> = InputEdge {
            a: point_of(piece.0),
            b: point_of(piece.1),
            edge_data: Road { number: piece.2 },
        };
        assert!(rt; edge.a.x.is_in_range() && edge.a.y.is_in_range());
        assert!(rt; edge.b.x.is_in_range() && edge.b.y.is_in_range());
        add_piece(&mut overlay, edge)?;
    }
    Ok(overlay)
}

// The piece of a road on the way from one place to another, filled on its left.
fn along<I: OverlayInt + From<i16>>(
    from: Place,
    to: Place,
    number: u32,
) -> DataVectorEdge<I, Road> {
    DataVectorEdge {
        a: point_of(from),
        b: point_of(to),
        fill: 1,
        edge_data: Road { number },
    }
}

// The way round both blocks. Where two roads lie on each other the smaller number stands, and what follows of the same
// road is joined with it.
fn way_round_both<I: OverlayInt + From<i16>>() -> [DataVectorEdge<I, Road>; 6] {
    [
        along((0, 4), (0, 0), 2),
        along((0, 0), (2, 0), 7),
        along((2, 0), (6, 0), 4),
        along((6, 0), (6, 4), 6),
        along((6, 4), (4, 4), 9),
        along((4, 4), (0, 4), 3),
    ]
}

// Tests whether that way alone is found, with its roads.
fn is_traced<I: OverlayInt + PartialEq + From<i16>>(
    rt: &impl Abort,
    alloc: Global,
) -> Result<bool, Fail> {
    let mut overlay = with_pieces::<I>(rt, alloc, &PIECES)?;
    let Some(shapes) = ways_round(&mut overlay)? else {
        return Ok(false);
    };
    if shapes.len() != 1 || shapes[0].len() != 1 {
        return Ok(false);
    }
    let mut roads = roads_along(alloc, &shapes[0][0])?;
    roads.sort()?;
    Ok(is_round(&shapes[0][0], &way_round_both::<I>()) && roads[..] == [2, 3, 4, 6, 7, 9][..])
}

// Tests whether nothing is traced without the last piece.
fn is_left_open<I: OverlayInt + From<i16>>(rt: &impl Abort, alloc: Global) -> Result<bool, Fail> {
    let mut overlay = with_pieces::<I>(rt, alloc, &PIECES[..7])?;
    Ok(ways_round(&mut overlay)?.is_none())
}

#[test]
fn roads_round_two_blocks(rt: HostRuntime) -> Result<(), Fail> {
    assert!(&rt; is_traced::<i16>(&rt, rt.alloc())?);
    assert!(&rt; is_traced::<i32>(&rt, rt.alloc())?);
    assert!(&rt; is_traced::<i64>(&rt, rt.alloc())?);
    Ok(())
}

#[test]
fn no_way_round_an_open_block(rt: HostRuntime) -> Result<(), Fail> {
    assert!(&rt; is_left_open::<i16>(&rt, rt.alloc())?);
    assert!(&rt; is_left_open::<i32>(&rt, rt.alloc())?);
    assert!(&rt; is_left_open::<i64>(&rt, rt.alloc())?);
    Ok(())
}
