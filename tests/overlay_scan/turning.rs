//! A list that turns into a tree: it answers as a list does, also where memory for the tree is refused.

use crate::levels::{Levels, NONE, SmallNumber, check_sweep};
use crate::many::{check_order, height_at};
use crate::orders::{COUNT, Order, any_gap, any_height, heights_in};
use overlay_geom::error::OverlayError;
use overlay_scan::list::ScanList;
use overlay_scan::tree::ScanTree;
use overlay_scan::tree::either::EitherScan;
use refusing_alloc::refusing::Refusing;
use std::alloc::Global;
use std::process::Abort;

// Number of edges that are compared at small numbers.
const SOME: u16 = 1000;

// The end of an edge that outlasts all of these.
const FAR: u16 = 6000;

// More requests than a scan of few edges takes.
const PLENTY: u64 = 1000;

// Compares a list with one that turns at a number, as edges come and end.
fn compare<I: SmallNumber>(
    rt: &impl Abort,
    alloc: Global,
    order: Order,
    number: usize,
) -> Result<(), OverlayError> {
    let heights = heights_in(alloc, order)?;
    let list: ScanList<I, u16, _> = ScanList::default(alloc);
    let turning: EitherScan<I, u16, _> = EitherScan::turning_at(alloc, number);
    let mut list = Levels::new(list);
    let mut turning = Levels::new(turning);
    check_order(rt, &mut list, &mut turning, &heights, 0, SOME)
}

fn compare_in_orders<I: SmallNumber>(
    rt: &impl Abort,
    alloc: Global,
    number: usize,
) -> Result<(), OverlayError> {
    compare::<I>(rt, alloc, Order::Rising, number)?;
    compare::<I>(rt, alloc, Order::Falling, number)?;
    compare::<I>(rt, alloc, Order::Zigzag, number)?;
    compare::<I>(rt, alloc, Order::Random, number)
}

// Makes the sweep over level edges, and compares, at each coordinate type.
fn check_number(rt: &impl Abort, alloc: Global, number: usize) -> Result<(), OverlayError> {
    let scan: EitherScan<i16, u16, _> = EitherScan::turning_at(alloc, number);
    check_sweep(rt, scan)?;
    let scan: EitherScan<i32, u16, _> = EitherScan::turning_at(alloc, number);
    check_sweep(rt, scan)?;
    let scan: EitherScan<i64, u16, _> = EitherScan::turning_at(alloc, number);
    check_sweep(rt, scan)?;
    compare_in_orders::<i16>(rt, alloc, number)?;
    compare_in_orders::<i32>(rt, alloc, number)?;
    compare_in_orders::<i64>(rt, alloc, number)
}

#[test]
fn a_list_turns_at_the_first_edge(rt: HostRuntime) -> Result<(), OverlayError> {
    check_number(&rt, rt.alloc(), 0)
}

#[test]
fn a_list_turns_at_the_second_edge(rt: HostRuntime) -> Result<(), OverlayError> {
    check_number(&rt, rt.alloc(), 1)
}

#[test]
fn a_list_turns_at_the_fifth_edge(rt: HostRuntime) -> Result<(), OverlayError> {
    check_number(&rt, rt.alloc(), 4)
}

// Inserts three edges that last, above one another, with no memory granted for the third. Returns whether it was
// refused.
fn is_third_refused(rt: &impl Abort, alloc: Global, number: usize) -> Result<bool, OverlayError> {
    let memory = Refusing::new(alloc, PLENTY);
    let scan: EitherScan<i32, u16, _> = EitherScan::turning_at(&memory, number);
    let mut levels = Levels::new(scan);
    levels.insert(rt, 0, FAR, 1)?;
    levels.insert(rt, 0, FAR, 3)?;
    memory.grant(0);
    let is_refused = levels.insert(rt, 1, FAR, 5).is_err();
    assert_eq!(rt; levels.up_to(rt, 1, 2), 1);
    assert_eq!(rt; levels.up_to(rt, 1, 4), 3);
    assert_eq!(rt; levels.up_to(rt, 1, 6), if is_refused { 3 } else { 5 });
    memory.grant(PLENTY);
    if is_refused {
        levels.insert(rt, 1, FAR, 5)?;
    }
    assert_eq!(rt; levels.up_to(rt, 1, 6), 5);
    assert_eq!(rt; levels.below(rt, 2, FAR, 4), 3);
    Ok(is_refused)
}

#[test]
fn a_list_turns_just_when_it_would_hold_more(rt: HostRuntime) -> Result<(), OverlayError> {
    // a tree takes memory, and a list with room takes none
    assert!(rt; is_third_refused(&rt, rt.alloc(), 2)?);
    assert!(rt; !is_third_refused(&rt, rt.alloc(), 3)?);
    Ok(())
}

#[test]
fn a_list_whose_edges_have_ended_stays_a_list(rt: HostRuntime) -> Result<(), OverlayError> {
    let memory = Refusing::new(rt.alloc(), PLENTY);
    let scan: EitherScan<i32, u16, _> = EitherScan::turning_at(&memory, 4);
    let mut levels = Levels::new(scan);
    levels.insert(&rt, 0, 1, 1)?;
    levels.insert(&rt, 0, 1, 3)?;
    levels.insert(&rt, 0, 1, 5)?;
    levels.insert(&rt, 0, FAR, 7)?;
    memory.grant(0);
    levels.insert(&rt, 1, FAR, 9)?;
    levels.insert(&rt, 1, FAR, 2)?;
    assert_eq!(rt; levels.up_to(&rt, 1, 6), 2);
    assert_eq!(rt; levels.up_to(&rt, 1, 8), 7);
    assert_eq!(rt; levels.up_to(&rt, 1, 10), 9);
    Ok(())
}

// Puts an edge that lasts into both, and asks both.
fn put_lasting(
    rt: &impl Abort,
    turning: &mut Levels<EitherScan<i32, u16, Global>>,
    tree: &mut Levels<ScanTree<i32, u16, Global>>,
    n: u16,
    height: u16,
) -> Result<(), OverlayError> {
    turning.insert(rt, 0, FAR, height)?;
    tree.insert(rt, 0, FAR, height)?;
    let up_to = any_height(2 * u64::from(n));
    let gap = any_gap(2 * u64::from(n) + 1);
    assert_eq!(rt; turning.up_to(rt, 0, up_to), tree.up_to(rt, 0, up_to));
    assert_eq!(rt; turning.below(rt, 0, FAR, gap), tree.below(rt, 0, FAR, gap));
    Ok(())
}

#[test]
fn ten_thousand_edges_live_at_once(rt: HostRuntime) -> Result<(), OverlayError> {
    let heights = heights_in(rt.alloc(), Order::Random)?;
    let mut turning = Levels::new(EitherScan::default(rt.alloc()));
    let mut tree = Levels::new(ScanTree::default(rt.alloc()));
    for n in 0..COUNT {
        put_lasting(&rt, &mut turning, &mut tree, n, height_at(&heights, n))?;
    }
    assert_eq!(rt; turning.up_to(&rt, FAR - 1, 15_000), 14_997);
    assert_eq!(rt; turning.up_to(&rt, FAR, 15_000), NONE);
    Ok(())
}
