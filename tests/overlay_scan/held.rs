//! How many edges a list holds at once, told by the memory that it takes: those that have ended do not stay for good.

use crate::levels::{Levels, SmallNumber};
use crate::orders::{COUNT, Order, any_gap, any_height, heights_in};
use overlay_geom::error::OverlayError;
use overlay_scan::list::ScanList;
use overlay_scan::scan::Scan;
use refusing_alloc::refusing::Refusing;
use std::alloc::Global;
use std::process::Abort;

// How many edges are live at once.
const LIVE: u16 = 23;

// The most that a list holds then: twice as many as were live when it last dropped what had ended, and 17 more.
const HELD: u16 = 2 * LIVE + 17;

// So far an edge reaches that outlasts all of these.
const FAR: u16 = 6000;

// More requests than a list takes.
const PLENTY: u64 = 1000;

// What is asked of a list after each edge.
#[derive(Clone, Copy)]
enum Asked {
    Nothing,
    Heights,
    Gaps,
}

fn ask<I: SmallNumber, S: Scan<I, u16>>(
    rt: &impl Abort,
    levels: &mut Levels<S>,
    x: u16,
    asked: Asked,
) {
    match asked {
        Asked::Nothing => {}
        Asked::Heights => {
            levels.up_to(rt, x, any_height(u64::from(x)));
        }
        Asked::Gaps => {
            levels.below(rt, x, x + 1, any_gap(u64::from(x)));
        }
    }
}

// How many requests a list takes for so many edges, of which one starts at each x, and each is so long.
fn requests<I: SmallNumber>(
    rt: &impl Abort,
    alloc: Global,
    heights: &[u16],
    (count, length): (u16, u16),
    asked: Asked,
) -> Result<u64, OverlayError> {
    let memory = Refusing::new(alloc, PLENTY);
    let list: ScanList<I, u16, _> = ScanList::default(&memory);
    let mut levels = Levels::new(list);
    for x in 0..count {
        levels.insert(rt, x, x + length, heights[usize::from(x)])?;
        ask(rt, &mut levels, x, asked);
    }
    Ok(PLENTY - memory.left())
}

// Thousands of edges, of which few are live at once, take no more memory than a list that holds just the most; and
// twice as many live ones do take more.
fn check_order<I: SmallNumber>(
    rt: &impl Abort,
    alloc: Global,
    order: Order,
) -> Result<(), OverlayError> {
    let heights = heights_in(alloc, order)?;
    let wanted = requests::<I>(rt, alloc, &heights, (HELD, FAR), Asked::Nothing)?;
    let twice = requests::<I>(rt, alloc, &heights, (2 * HELD, FAR), Asked::Nothing)?;
    assert!(rt; wanted < twice, "{wanted} and {twice} requests");
    for asked in [Asked::Nothing, Asked::Heights, Asked::Gaps] {
        let taken = requests::<I>(rt, alloc, &heights, (COUNT, LIVE), asked)?;
        assert!(rt; taken <= wanted, "{taken} requests, and not {wanted}");
    }
    Ok(())
}

fn check_orders<I: SmallNumber>(rt: &impl Abort, alloc: Global) -> Result<(), OverlayError> {
    check_order::<I>(rt, alloc, Order::Rising)?;
    check_order::<I>(rt, alloc, Order::Falling)?;
    check_order::<I>(rt, alloc, Order::Zigzag)?;
    check_order::<I>(rt, alloc, Order::Random)
}

#[test]
fn ended_edges_do_not_stay_for_good(rt: HostRuntime) -> Result<(), OverlayError> {
    check_orders::<i16>(&rt, rt.alloc())?;
    check_orders::<i32>(&rt, rt.alloc())?;
    check_orders::<i64>(&rt, rt.alloc())
}
