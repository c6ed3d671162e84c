//! `insert` of a sweep over live edges, in a list and in a tree.

use crate::figures::{Width, point};
use crate::refusals::{Answer, Memory, Trial};
use i_overlay::string::line::IntLine;
use overlay_scan::list::ScanList;
use overlay_scan::scan::Scan;
use overlay_scan::tree::ScanTree;
use std::process::Abort;
use std::test::Fail;

// Number of edges, more than a list grows to at once.
const MOST: u16 = 40;

// A level edge at a height, from zero on.
fn level<I: Width>(height: i16) -> IntLine<I> {
    [point(0, height), point(9, height)]
}

// The n-th height: all up to the most, in no order.
fn height_at(n: u16) -> i16 {
    ((7 * n) % MOST) as i16
}

// Returns whether the sweep holds exactly the first edges, by look-ups below an edge that rises from each height.
fn holds<I: Width, S: Scan<I, i16>>(scan: &mut S, count: u16) -> bool {
    for asked in 0..=MOST as i16 {
        let mut wanted = -1;
        for n in 0..count {
            let height = height_at(n);
            wanted = if height <= asked {
                wanted.max(height)
            } else {
                wanted
            };
        }
        let edge = [point(0, asked), point(9, asked + 1)];
        if scan.first_less(I::from(0), -1, edge) != wanted {
            return false;
        }
    }
    true
}

// Puts in the edges that are left, and counts them.
fn insert_more<I: Width, S: Scan<I, i16>>(scan: &mut S, count: &mut u16) -> Answer<()> {
    while *count < MOST {
        let height = height_at(*count);
        scan.insert(level(height), height, I::from(0))?;
        *count += 1;
    }
    Ok(())
}

// A refused edge leaves the live edges; it and the later edges can be inserted then.
fn inserts<I: Width, S: Scan<I, i16> + Drop, N: Fn() -> S + Drop>(
    trial: &Trial<'_, impl Abort>,
    name: &str,
    new: N,
) -> Result<(), Fail> {
    trial.refuse_each(
        name,
        || Ok((new(), 0)),
        |it| insert_more::<I, S>(&mut it.0, &mut it.1),
        |it| {
            let is_as_before = holds::<I, S>(&mut it.0, it.1);
            insert_more::<I, S>(&mut it.0, &mut it.1)?;
            Ok(is_as_before && holds::<I, S>(&mut it.0, MOST))
        },
    )
}

fn check_insert<I: Width>(trial: &Trial<'_, impl Abort>) -> Result<(), Fail> {
    let memory = trial.memory;
    inserts::<I, ScanList<I, i16, Memory<'_>>, _>(trial, "ScanList::insert", || {
        ScanList::default(memory)
    })?;
    inserts::<I, ScanTree<I, i16, Memory<'_>>, _>(trial, "ScanTree::insert", || {
        ScanTree::default(memory)
    })
}

#[test]
fn inserts_of_scans(rt: HostRuntime) -> Result<(), Fail> {
    at_each_width!(rt, check_insert)
}
