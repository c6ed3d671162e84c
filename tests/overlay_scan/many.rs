//! A list and a tree of many edges, put in from below, from above, from both sides by turns and at random.

use crate::levels::{Levels, NONE, SmallNumber};
use crate::orders::{COUNT, Order, any_gap, any_height, heights_in};
use overlay_geom::error::OverlayError;
use overlay_scan::list::ScanList;
use overlay_scan::scan::Scan;
use overlay_scan::tree::ScanTree;
use overlay_scan::tree::either::EitherScan;
use refusing_alloc::refusing::Refusing;
use std::alloc::Global;
use std::process::Abort;

// Number of edges inserted after a refusal.
const LATER: u16 = 100;

// Number of edges at coordinate types beside the first.
const FEWER: u16 = 1000;

// Number of edges at which a list turns into a tree whose growths are refused.
const TURNING_AT: usize = 300;

// Start and end of the n-th edge. Ends differ, so that some edges have ended later on.
fn span_at(n: u16) -> (u16, u16) {
    let x = n / 100;
    (x, x + 1 + n % 89)
}

// The n-th height, or a height that no edge has.
pub(crate) fn height_at(heights: &[u16], n: u16) -> u16 {
    match heights.get(usize::from(n)) {
        Some(height) => *height,
        None => NONE,
    }
}

// Answers of each look-up at the start of the n-th edge: up to some height, below a level edge and below a vertical
// edge.
fn answers<I: SmallNumber, S: Scan<I, u16>>(
    levels: &mut Levels<S>,
    rt: &impl Abort,
    n: u16,
) -> [u16; 3] {
    let (x, end) = span_at(n);
    let asked = 3 * u64::from(n);
    [
        levels.up_to(rt, x, any_height(asked)),
        levels.below(rt, x, end, any_gap(asked + 1)),
        levels.below_upright(rt, x, any_gap(asked + 2)),
    ]
}

// Puts the n-th edge into both, and asks both.
fn put_and_ask<I: SmallNumber, S: Scan<I, u16>, T: Scan<I, u16>>(
    rt: &impl Abort,
    list: &mut Levels<S>,
    tree: &mut Levels<T>,
    n: u16,
    height: u16,
) -> Result<(), OverlayError> {
    let (x, end) = span_at(n);
    list.insert(rt, x, end, height)?;
    tree.insert(rt, x, end, height)?;
    assert_eq!(rt; answers(list, rt, n), answers(tree, rt, n));
    Ok(())
}

// Inserts the edges of a range into both, and asks both after each.
pub(crate) fn check_order<I: SmallNumber, S: Scan<I, u16>, T: Scan<I, u16>>(
    rt: &impl Abort,
    list: &mut Levels<S>,
    tree: &mut Levels<T>,
    heights: &[u16],
    from: u16,
    to: u16,
) -> Result<(), OverlayError> {
    for n in from..to {
        put_and_ask(rt, list, tree, n, height_at(heights, n))?;
    }
    Ok(())
}

// The first edges in this order in a list and in a tree.
fn compare<I: SmallNumber>(
    rt: &impl Abort,
    alloc: Global,
    order: Order,
    count: u16,
) -> Result<(), OverlayError> {
    let heights = heights_in(alloc, order)?;
    let list: ScanList<I, u16, _> = ScanList::default(alloc);
    let tree: ScanTree<I, u16, _> = ScanTree::default(alloc);
    let mut list = Levels::new(list);
    let mut tree = Levels::new(tree);
    check_order(rt, &mut list, &mut tree, &heights, 0, count)
}

// Puts the n-th edge into both. A tree that is refused memory answers as before, and takes the edge once memory is
// granted again. Returns whether it was refused.
fn put_again<I: SmallNumber, S: Scan<I, u16>, T: Scan<I, u16>>(
    rt: &impl Abort,
    list: &mut Levels<S>,
    tree: &mut Levels<T>,
    memory: &Refusing<Global>,
    n: u16,
    height: u16,
) -> Result<bool, OverlayError> {
    let (x, end) = span_at(n);
    let is_refused = tree.insert(rt, x, end, height).is_err();
    if is_refused {
        assert_eq!(rt; answers(list, rt, n), answers(tree, rt, n));
        memory.grant(u64::MAX);
        tree.insert(rt, x, end, height)?;
    }
    list.insert(rt, x, end, height)?;
    Ok(is_refused)
}

// Puts edges into both until the tree is refused memory, and then some more. Returns whether it was refused.
fn check_refused<I: SmallNumber, S: Scan<I, u16>, T: Scan<I, u16>>(
    rt: &impl Abort,
    list: &mut Levels<S>,
    tree: &mut Levels<T>,
    memory: &Refusing<Global>,
    heights: &[u16],
) -> Result<bool, OverlayError> {
    for n in 0..COUNT {
        if put_again(rt, list, tree, memory, n, height_at(heights, n))? {
            check_order(rt, list, tree, heights, n + 1, COUNT.min(n + 1 + LATER))?;
            return Ok(true);
        }
    }
    Ok(false)
}

// Makes that check of an empty scan with this number of requests granted, and returns whether one was refused.
fn is_refused_after<I: SmallNumber, T: Scan<I, u16> + Drop>(
    rt: &impl Abort,
    alloc: Global,
    memory: &Refusing<Global>,
    tree: T,
) -> Result<bool, OverlayError> {
    let heights = heights_in(alloc, Order::Random)?;
    let list: ScanList<I, u16, _> = ScanList::default(alloc);
    let mut list = Levels::new(list);
    let mut tree = Levels::new(tree);
    check_refused(rt, &mut list, &mut tree, memory, &heights)
}

// Makes the check of a tree.
fn is_tree_refused_after<I: SmallNumber>(
    rt: &impl Abort,
    alloc: Global,
    granted: u64,
) -> Result<bool, OverlayError> {
    let memory = Refusing::new(alloc, granted);
    let tree: ScanTree<I, u16, _> = ScanTree::default(&memory);
    is_refused_after::<I, _>(rt, alloc, &memory, tree)
}

// Makes the check of a list that turns into a tree.
fn is_turning_refused_after<I: SmallNumber>(
    rt: &impl Abort,
    alloc: Global,
    granted: u64,
) -> Result<bool, OverlayError> {
    let memory = Refusing::new(alloc, granted);
    let turning: EitherScan<I, u16, _> = EitherScan::turning_at(&memory, TURNING_AT);
    is_refused_after::<I, _>(rt, alloc, &memory, turning)
}

// Refuses each growth of a tree in turn, until none is left.
fn check_growths<I: SmallNumber>(rt: &impl Abort, alloc: Global) -> Result<(), OverlayError> {
    let mut last = 0;
    for granted in 0..64 {
        if !is_tree_refused_after::<I>(rt, alloc, granted)? {
            break;
        }
        last = granted;
    }
    // the nodes grow to twice their number, again and again
    assert!(rt; 4 < last && last < 63);
    Ok(())
}

// Refuses each growth of a list that turns in turn, until none is left.
fn check_turning_growths<I: SmallNumber>(
    rt: &impl Abort,
    alloc: Global,
) -> Result<(), OverlayError> {
    let mut last = 0;
    for granted in 0..64 {
        if !is_turning_refused_after::<I>(rt, alloc, granted)? {
            break;
        }
        last = granted;
    }
    // the list grows, and then the nodes from the first on
    assert!(rt; 8 < last && last < 63);
    Ok(())
}

// An order at each coordinate type: all edges at one, the first of them at the others.
fn compare_at_each_type(rt: &impl Abort, alloc: Global, order: Order) -> Result<(), OverlayError> {
    compare::<i16>(rt, alloc, order, COUNT)?;
    compare::<i32>(rt, alloc, order, FEWER)?;
    compare::<i64>(rt, alloc, order, FEWER)
}

#[test]
fn each_growth_refused_in_turn(rt: HostRuntime) -> Result<(), OverlayError> {
    check_growths::<i16>(&rt, rt.alloc())?;
    check_growths::<i32>(&rt, rt.alloc())?;
    check_growths::<i64>(&rt, rt.alloc())
}

#[test]
fn each_growth_of_a_turning_list_refused_in_turn(rt: HostRuntime) -> Result<(), OverlayError> {
    check_turning_growths::<i16>(&rt, rt.alloc())?;
    check_turning_growths::<i32>(&rt, rt.alloc())?;
    check_turning_growths::<i64>(&rt, rt.alloc())
}

#[test]
fn edges_from_below(rt: HostRuntime) -> Result<(), OverlayError> {
    compare_at_each_type(&rt, rt.alloc(), Order::Rising)
}

#[test]
fn edges_from_above(rt: HostRuntime) -> Result<(), OverlayError> {
    compare_at_each_type(&rt, rt.alloc(), Order::Falling)
}

#[test]
fn edges_from_both_sides(rt: HostRuntime) -> Result<(), OverlayError> {
    compare_at_each_type(&rt, rt.alloc(), Order::Zigzag)
}

#[test]
fn edges_at_random(rt: HostRuntime) -> Result<(), OverlayError> {
    compare_at_each_type(&rt, rt.alloc(), Order::Random)
}
