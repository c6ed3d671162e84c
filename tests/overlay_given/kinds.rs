//! Where edges meet, in lists about as long as a block of neighbours, as several blocks, and as the longest that is
//! searched by blocks.

use overlay_geom::number::IntNumber;
use overlay_geom::point::IntPoint;
use overlay_given::uncrossed::{MeetingKind, meeting_kind};
use overlay_order::count::ShapeCountBoolean;
use overlay_order::edge::CountedEdge;
use std::alloc::{AllocError, Global};
use std::process::Abort;
use std::test::Fail;

type Edges<I> = Vec<CountedEdge<I, ShapeCountBoolean>, Global>;

// The edge (ax, ay) to (bx, by).
fn edge<I: IntNumber + From<i16>>(
    ax: i16,
    ay: i16,
    bx: i16,
    by: i16,
) -> CountedEdge<I, ShapeCountBoolean> {
    CountedEdge {
        a: IntPoint::new(I::from(ax), I::from(ay)),
        b: IntPoint::new(I::from(bx), I::from(by)),
        count: ShapeCountBoolean { subj: 1, clip: 0 },
    }
}

// Two edges that overlap far to the left, which is no crossing. So the list does not meet in ends alone.
fn overlapping<I: IntNumber + From<i16>>(alloc: Global) -> Result<Edges<I>, AllocError> {
    let mut edges = Vec::new(alloc);
    edges.push(edge(-10, 0, -8, 0))?;
    edges.push(edge(-9, 0, -7, 0))?;
    Ok(edges)
}

// Over the edge (0, 0) to (9000, 9) start `count` others at x = 1, 2 ..: by turns above it, from y = 100 up to 105, and
// below it. But that at place `through`, from 1 on, leads from y = -100 up to 105, so it crosses it.
fn by_turns<I: IntNumber + From<i16>>(
    alloc: Global,
    count: i16,
    through: i16,
) -> Result<Edges<I>, AllocError> {
    let mut edges = overlapping(alloc)?;
    edges.push(edge(0, 0, 9000, 9))?;
    for x in 1..=count {
        let low = if x % 2 == 0 { 100 } else { -105 };
        if x == through {
            edges.push(edge(x, -100, x + 1, 105))?;
        } else {
            edges.push(edge(x, low, x, low + 5))?;
        }
    }
    Ok(edges)
}

// Along the edge (0, 0) to (9000, 9000) lie `count` others: that at x leads from (x, x + 2) to (x + 1, x + 3),
// above it. But that at x = `through` leads down to (x + 1, x), so it crosses it.
fn along<I: IntNumber + From<i16>>(
    alloc: Global,
    count: i16,
    through: i16,
) -> Result<Edges<I>, AllocError> {
    let mut edges = overlapping(alloc)?;
    edges.push(edge(0, 0, 9000, 9000))?;
    for x in 1..=count {
        let to = if x == through { x } else { x + 3 };
        edges.push(edge(x, x + 2, x + 1, to))?;
    }
    Ok(edges)
}

// Stops the test unless no edges of either list cross without a crossing edge, and some do with it, at each coordinate
// type.
fn assert_found(rt: &impl Abort, alloc: Global, count: i16, through: i16) -> Result<(), Fail> {
    assert_kinds::<i16>(rt, alloc, count, through)?;
    assert_kinds::<i32>(rt, alloc, count, through)?;
    assert_kinds::<i64>(rt, alloc, count, through)
}

fn assert_kinds<I: IntNumber + From<i16>>(
    rt: &impl Abort,
    alloc: Global,
    count: i16,
    through: i16,
) -> Result<(), Fail> {
    let crossed = if 0 < through {
        MeetingKind::Crossed
    } else {
        MeetingKind::Uncrossed
    };
    let turns = by_turns::<I>(alloc.clone()?, count, through)?;
    assert!(rt; meeting_kind(alloc.clone()?, &turns)? == crossed);
    let beside = along::<I>(alloc.clone()?, count, through)?;
    assert!(rt; meeting_kind(alloc, &beside)? == crossed);
    Ok(())
}

// Lists of 2 to 13 edges: the others are up to two blocks.
#[test]
fn few_edges(rt: HostRuntime) -> Result<(), Fail> {
    for count in 0..=10 {
        for through in 0..=count {
            assert_found(&rt, rt.alloc(), count, through)?;
        }
    }
    Ok(())
}

// Some 32 others are tested at once first.
#[test]
fn several_blocks(rt: HostRuntime) -> Result<(), Fail> {
    for count in [31, 32, 33, 39, 40, 41] {
        for through in 0..=count {
            assert_found(&rt, rt.alloc(), count, through)?;
        }
    }
    Ok(())
}

// Up to 256 later edges that start over an edge are tested block by block.
#[test]
fn longest_by_blocks(rt: HostRuntime) -> Result<(), Fail> {
    for count in 253..=259 {
        for through in [0, 1, 5, 6, 127, 251, 252, 253] {
            assert_found(&rt, rt.alloc(), count, through)?;
        }
        assert_found(&rt, rt.alloc(), count, count)?;
    }
    Ok(())
}

// One edge meets no other, and two that overlap do not cross.
#[test]
fn one_edge_and_two(rt: HostRuntime) -> Result<(), Fail> {
    let mut edges = Vec::new(rt.alloc());
    assert!(rt; meeting_kind(rt.alloc(), &edges)? == MeetingKind::InEnds);
    edges.push(edge::<i32>(0, 0, 9000, 9))?;
    assert!(rt; meeting_kind(rt.alloc(), &edges)? == MeetingKind::InEnds);
    let two = overlapping::<i32>(rt.alloc())?;
    assert!(rt; meeting_kind(rt.alloc(), &two)? == MeetingKind::Uncrossed);
    Ok(())
}

// A row of vertical edges apart from one another, of 256 and of 257, meets nowhere.
#[test]
fn edges_apart(rt: HostRuntime) -> Result<(), Fail> {
    for count in [8, 9, 256, 257, 600] {
        let mut edges = Vec::new(rt.alloc());
        for x in 0..count {
            edges.push(edge::<i32>(x, 0, x, 5))?;
        }
        assert!(rt; meeting_kind(rt.alloc(), &edges)? == MeetingKind::InEnds);
    }
    Ok(())
}
