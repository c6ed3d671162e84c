//! The lower of two edges, a list without edges, a list of one edge, and a list in which edges have ended.

use overlay_geom::error::OverlayError;
use overlay_geom::path::IntLine;
use overlay_geom::point::IntPoint;
use overlay_scan::list::{LiveEdge, ScanList, is_under};
use overlay_scan::scan::Scan;
use std::cmp::Ordering;

// An edge from (ax, ay) to (bx, by).
fn edge<I>(ax: I, ay: I, bx: I, by: I) -> LiveEdge<I, u8> {
    LiveEdge {
        a: IntPoint::new(ax, ay),
        b: IntPoint::new(bx, by),
        value: 0,
    }
}

#[test]
fn which_edge_is_under_which(rt: HostRuntime) {
    let low = edge(0i32, 0, 10, 0);
    let high = edge(2i32, 3, 6, 9);
    assert!(rt; is_under(&low, &high));
    assert!(rt; !is_under(&high, &low));
    assert!(rt; !is_under(&low, &low));
}

#[test]
fn which_edge_is_under_which_at_a_shared_start(rt: HostRuntime) {
    let falling = edge(1i16, 1, 4, -2);
    let rising = edge(1i16, 1, 3, 2);
    assert!(rt; is_under(&falling, &rising));
    assert!(rt; !is_under(&rising, &falling));
}

#[test]
fn which_edge_is_under_a_vertical_one(rt: HostRuntime) {
    let upright = edge(2i32, 3, 2, 9);
    let from_its_start = edge(2i32, 3, 6, 40);
    let below_its_start = edge(0i32, 0, 10, 1);
    let above_its_start = edge(0i32, 4, 10, 4);
    let through_its_end = edge(0i32, 9, 2, 9);
    assert!(rt; is_under(&from_its_start, &upright));
    assert!(rt; is_under(&below_its_start, &upright));
    assert!(rt; !is_under(&above_its_start, &upright));
    assert!(rt; !is_under(&through_its_end, &upright));
    assert!(rt; !is_under(&upright, &upright));
}

#[test]
fn which_edge_is_under_which_at_the_ends_of_the_range(rt: HostRuntime) {
    let level = edge(-4611686018427387903i64, 0, 4611686018427387903, 1);
    let above = edge(0i64, 1, 1, 4611686018427387903);
    let below = edge(0i64, 0, 1, -4611686018427387903);
    assert!(rt; is_under(&level, &above));
    assert!(rt; is_under(&below, &level));
    assert!(rt; !is_under(&level, &below));
}

#[test]
fn an_empty_list_gives_the_default(rt: HostRuntime) {
    let mut list: ScanList<i16, u8, _> = ScanList::default(rt.alloc());
    assert_eq!(rt;
        list.first_less(0, 7, [IntPoint::new(0, 0), IntPoint::new(1, 0)]),
        7
    );
}

// Looks for any edge at all.
fn is_reached(_line: IntLine<i64>) -> Ordering {
    Ordering::Equal
}

#[test]
fn one_edge_is_inserted_and_cleared(rt: HostRuntime) -> Result<(), OverlayError> {
    let mut list: ScanList<i64, u8, _> = ScanList::default(rt.alloc());
    list.insert([IntPoint::new(0, 0), IntPoint::new(4, 2)], 1, 0)?;
    assert_eq!(rt;
        list.first_less_or_equal_by(0, 7, |line: IntLine<i64>| is_reached(line)),
        1
    );
    list.clear();
    assert_eq!(rt;
        list.first_less_or_equal_by(0, 7, |line: IntLine<i64>| is_reached(line)),
        7
    );
    Ok(())
}

// A level edge from x to its end.
fn level(x: i16, end: i16, y: i16) -> IntLine<i16> {
    [IntPoint::new(x, y), IntPoint::new(end, y)]
}

// The value of the highest edge below a height, or 0.
fn below<S: Scan<i16, u8>>(scan: &mut S, x: i16, y: i16) -> u8 {
    scan.first_less(x, 0, [IntPoint::new(x, y), IntPoint::new(x + 1, y)])
}

#[test]
fn an_edge_takes_the_place_of_one_that_has_ended(rt: HostRuntime) -> Result<(), OverlayError> {
    let mut list: ScanList<i16, u8, _> = ScanList::default(rt.alloc());
    list.insert(level(0, 3, 0), 1, 0)?;
    list.insert(level(0, 9, 4), 2, 0)?;
    assert_eq!(rt; below(&mut list, 2, 3), 1);
    assert_eq!(rt; below(&mut list, 3, 3), 0);
    list.insert(level(3, 9, 2), 3, 3)?;
    assert_eq!(rt; below(&mut list, 3, 1), 0);
    assert_eq!(rt; below(&mut list, 3, 3), 3);
    assert_eq!(rt; below(&mut list, 3, 5), 2);
    Ok(())
}

#[test]
fn an_edge_is_put_in_between_ended_ones(rt: HostRuntime) -> Result<(), OverlayError> {
    let mut list: ScanList<i16, u8, _> = ScanList::default(rt.alloc());
    list.insert(level(0, 2, 0), 1, 0)?;
    list.insert(level(0, 9, 2), 2, 0)?;
    list.insert(level(0, 2, 4), 3, 0)?;
    list.insert(level(0, 2, 6), 4, 0)?;
    list.insert(level(0, 9, 8), 5, 0)?;
    list.insert(level(2, 9, 6), 6, 2)?;
    list.insert(level(2, 9, 4), 7, 2)?;
    assert_eq!(rt; below(&mut list, 2, 1), 0);
    assert_eq!(rt; below(&mut list, 2, 3), 2);
    assert_eq!(rt; below(&mut list, 2, 5), 7);
    assert_eq!(rt; below(&mut list, 2, 7), 6);
    assert_eq!(rt; below(&mut list, 2, 9), 5);
    Ok(())
}

#[test]
fn many_edges_that_have_ended_are_passed_over(rt: HostRuntime) -> Result<(), OverlayError> {
    let mut list: ScanList<i16, u8, _> = ScanList::default(rt.alloc());
    list.insert(level(0, 9, -2), 101, 0)?;
    for n in 0..100u8 {
        list.insert(level(0, 5, 2 * i16::from(n)), n + 1, 0)?;
    }
    list.insert(level(0, 9, 200), 102, 0)?;
    assert_eq!(rt; below(&mut list, 4, 199), 100);
    assert_eq!(rt; below(&mut list, 4, 99), 50);
    assert_eq!(rt; below(&mut list, 5, 199), 101);
    assert_eq!(rt; below(&mut list, 5, 201), 102);
    list.insert(level(5, 9, 100), 103, 5)?;
    assert_eq!(rt; below(&mut list, 5, 99), 101);
    assert_eq!(rt; below(&mut list, 5, 199), 103);
    Ok(())
}
