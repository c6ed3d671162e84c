//! A sweep over level edges by the trait alone, at each coordinate type.

use overlay_geom::error::OverlayError;
use overlay_geom::number::IntNumber;
use overlay_geom::path::IntLine;
use overlay_geom::point::IntPoint;
use overlay_scan::list::ScanList;
use overlay_scan::scan::Scan;
use overlay_scan::tree::ScanTree;
use std::process::Abort;

// The answer where no edge is found.
pub(crate) const NONE: u16 = u16::MAX;

// The greatest coordinate, which each coordinate type has.
const MOST: u16 = 16383;

// A coordinate type, with small numbers as coordinates.
pub(crate) trait SmallNumber: IntNumber {
    fn small(n: u16) -> Self;
}

impl SmallNumber for i16 {
    fn small(n: u16) -> i16 {
        n as i16
    }
}

impl SmallNumber for i32 {
    fn small(n: u16) -> i32 {
        i32::from(n)
    }
}

impl SmallNumber for i64 {
    fn small(n: u16) -> i64 {
        i64::from(n)
    }
}

// The edge from x to `end` at a height.
fn level<I: SmallNumber>(x: u16, end: u16, height: u16) -> IntLine<I> {
    [
        IntPoint::new(I::small(x), I::small(height)),
        IntPoint::new(I::small(end), I::small(height)),
    ]
}

// The vertical edge over x from a height to the next.
fn upright<I: SmallNumber>(x: u16, height: u16) -> IntLine<I> {
    [
        IntPoint::new(I::small(x), I::small(height)),
        IntPoint::new(I::small(x), I::small(height + 1)),
    ]
}

// A sweep over level edges at different heights. The value of each is its height.
#[derive(Drop)]
pub(crate) struct Levels<S> {
    scan: S,
    // where the sweep may go on from
    reached: u16,
}

impl<S> Levels<S> {
    // No edges yet.
    pub(crate) fn new(scan: S) -> Self {
        Levels { scan, reached: 0 }
    }

    // Stops the test unless an edge from x to `end` at a height may come next.
    fn check_next(&self, rt: &impl Abort, x: u16, end: u16, height: u16) {
        assert!(rt; self.reached <= x);
        assert!(rt; x < end);
        assert!(rt; end <= MOST && height <= MOST);
    }

    // Inserts the edge from x to `end` at a height. A refusal leaves the live edges as they were.
    pub(crate) fn insert<I: SmallNumber>(
        &mut self,
        rt: &impl Abort,
        x: u16,
        end: u16,
        height: u16,
    ) -> Result<(), OverlayError>
    where
        S: Scan<I, u16>,
    {
        self.check_next(rt, x, end, height);
        let line: IntLine<I> = level(x, end, height);
        self.reached = x;
        self.scan.insert(line, height, I::small(x))
    }

    // The height of the highest edge under an edge from x to `end` at another height.
    pub(crate) fn below<I: SmallNumber>(
        &mut self,
        rt: &impl Abort,
        x: u16,
        end: u16,
        height: u16,
    ) -> u16
    where
        S: Scan<I, u16>,
    {
        self.check_next(rt, x, end, height);
        let line: IntLine<I> = level(x, end, height);
        self.reached = x;
        self.scan.first_less(I::small(x), NONE, line)
    }

    // The height of the highest edge below a vertical edge over x, from a height to the next.
    pub(crate) fn below_upright<I: SmallNumber>(
        &mut self,
        rt: &impl Abort,
        x: u16,
        height: u16,
    ) -> u16
    where
        S: Scan<I, u16>,
    {
        assert!(rt; self.reached <= x);
        assert!(rt; x <= MOST && height < MOST);
        let line: IntLine<I> = upright(x, height);
        self.reached = x;
        self.scan.first_less(I::small(x), NONE, line)
    }

    // The height of the highest edge over x that is no higher than this height.
    pub(crate) fn up_to<I: SmallNumber>(&mut self, rt: &impl Abort, x: u16, height: u16) -> u16
    where
        S: Scan<I, u16>,
    {
        assert!(rt; self.reached <= x);
        assert!(rt; x <= MOST && height <= MOST);
        self.reached = x;
        let y = I::small(height);
        self.scan
            .first_less_or_equal_by(I::small(x), NONE, |line: IntLine<I>| {
                let [a, _] = line;
                a.y.compare(y)
            })
    }

    // Begins anew.
    pub(crate) fn clear<I: SmallNumber>(&mut self)
    where
        S: Scan<I, u16>,
    {
        self.scan.clear();
        self.reached = 0;
    }
}

// Two edges, and what is found below, between and above them.
fn check_two_edges<I: SmallNumber, S: Scan<I, u16>>(
    rt: &impl Abort,
    levels: &mut Levels<S>,
) -> Result<(), OverlayError> {
    levels.insert(rt, 0, 10, 6)?;
    levels.insert(rt, 0, 10, 2)?;
    assert_eq!(rt; levels.below(rt, 0, 8, 4), 2);
    assert_eq!(rt; levels.below(rt, 0, 8, 8), 6);
    assert_eq!(rt; levels.below(rt, 1, 8, 1), NONE);
    Ok(())
}

// Look-ups below vertical edges, under both, between them and above both.
fn check_uprights<I: SmallNumber, S: Scan<I, u16>>(rt: &impl Abort, levels: &mut Levels<S>) {
    assert_eq!(rt; levels.below_upright(rt, 1, 0), NONE);
    assert_eq!(rt; levels.below_upright(rt, 1, 3), 2);
    assert_eq!(rt; levels.below_upright(rt, 1, 7), 6);
}

// A third edge between them.
fn check_third_edge<I: SmallNumber, S: Scan<I, u16>>(
    rt: &impl Abort,
    levels: &mut Levels<S>,
) -> Result<(), OverlayError> {
    levels.insert(rt, 1, 3, 4)?;
    assert_eq!(rt; levels.below(rt, 2, 8, 5), 4);
    assert_eq!(rt; levels.below(rt, 2, 8, 3), 2);
    Ok(())
}

// The highest of the three up to a height, and where the third has ended.
fn check_heights<I: SmallNumber, S: Scan<I, u16>>(rt: &impl Abort, levels: &mut Levels<S>) {
    assert_eq!(rt; levels.up_to(rt, 2, 1), NONE);
    assert_eq!(rt; levels.up_to(rt, 2, 2), 2);
    assert_eq!(rt; levels.up_to(rt, 2, 5), 4);
    assert_eq!(rt; levels.up_to(rt, 2, 9), 6);
    assert_eq!(rt; levels.up_to(rt, 3, 5), 2);
    assert_eq!(rt; levels.below(rt, 3, 8, 5), 2);
}

// A new beginning.
fn check_cleared<I: SmallNumber, S: Scan<I, u16>>(
    rt: &impl Abort,
    levels: &mut Levels<S>,
) -> Result<(), OverlayError> {
    levels.clear();
    assert_eq!(rt; levels.below(rt, 0, 8, 8), NONE);
    assert_eq!(rt; levels.up_to(rt, 0, 8), NONE);
    levels.insert(rt, 0, 10, 2)?;
    assert_eq!(rt; levels.below(rt, 0, 8, 8), 2);
    Ok(())
}

// Two edges, a third between them that ends before them, and a new beginning.
pub(crate) fn check_sweep<I: SmallNumber, S: Scan<I, u16> + Drop>(
    rt: &impl Abort,
    scan: S,
) -> Result<(), OverlayError> {
    let mut levels = Levels::new(scan);
    check_two_edges(rt, &mut levels)?;
    check_uprights(rt, &mut levels);
    check_third_edge(rt, &mut levels)?;
    check_heights(rt, &mut levels);
    check_cleared(rt, &mut levels)
}

#[test]
fn a_sweep_over_level_edges(rt: HostRuntime) -> Result<(), OverlayError> {
    let list: ScanList<i16, u16, _> = ScanList::default(rt.alloc());
    check_sweep(&rt, list)?;
    let list: ScanList<i32, u16, _> = ScanList::default(rt.alloc());
    check_sweep(&rt, list)?;
    let list: ScanList<i64, u16, _> = ScanList::default(rt.alloc());
    check_sweep(&rt, list)?;
    Ok(())
}

#[test]
fn a_sweep_over_level_edges_in_a_tree(rt: HostRuntime) -> Result<(), OverlayError> {
    let tree: ScanTree<i16, u16, _> = ScanTree::default(rt.alloc());
    check_sweep(&rt, tree)?;
    let tree: ScanTree<i32, u16, _> = ScanTree::default(rt.alloc());
    check_sweep(&rt, tree)?;
    let tree: ScanTree<i64, u16, _> = ScanTree::default(rt.alloc());
    check_sweep(&rt, tree)?;
    Ok(())
}

// The heights of the highest edges over x no higher than 0, 1 and 2.
fn heights_over<I: SmallNumber, S: Scan<I, u16>>(
    levels: &mut Levels<S>,
    rt: &impl Abort,
    x: u16,
) -> [u16; 3] {
    [
        levels.up_to(rt, x, 0),
        levels.up_to(rt, x, 1),
        levels.up_to(rt, x, 2),
    ]
}

#[test]
fn edges_that_end_at_or_before_x_are_dropped(rt: HostRuntime) -> Result<(), OverlayError> {
    let list: ScanList<i32, u16, _> = ScanList::default(rt.alloc());
    let mut levels = Levels::new(list);
    levels.insert(&rt, 0, 3, 0)?;
    levels.insert(&rt, 0, 5, 1)?;
    levels.insert(&rt, 0, 4, 2)?;
    assert_eq!(rt; heights_over(&mut levels, &rt, 2), [0, 1, 2]);
    assert_eq!(rt; heights_over(&mut levels, &rt, 3), [NONE, 1, 2]);
    assert_eq!(rt; heights_over(&mut levels, &rt, 4), [NONE, 1, 1]);
    assert_eq!(rt; heights_over(&mut levels, &rt, 5), [NONE, NONE, NONE]);
    Ok(())
}
