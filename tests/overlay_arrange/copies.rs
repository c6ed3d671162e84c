//! Copies of one pentagon, with each corner moved by up to four units, like a boundary that was drawn several times.
//! Their sides cross so flatly that rounds make ever more edges; snap rounding makes few, once.

use crate::edges::{Held, edge, push};
use overlay_arrange::content::Content;
use overlay_geom::error::OverlayError;
use overlay_geom::number::{IntNumber, WideIntNumber};
use overlay_geom::point::IntPoint;
use overlay_geom::solver::Solver;
use overlay_geom::vector::cross_at;
use overlay_order::count::ShapeCountBoolean;
use overlay_order::edge::{CountedEdge, compare_points};
use overlay_pairs::settle::is_settled;
use std::alloc::Global;
use std::process::Abort;
use std::test::Fail;

// The pentagon, and copies of it.
const COUNT: i16 = 15;

// The coordinates of the points at which windings are compared, in fifths of the greatest.
const STEPS: [i16; 9] = [-4, -3, -2, -1, 0, 1, 2, 3, 4];

// The corner of a copy: moved by at most four units, and not at all in the first.
fn moved<I: IntNumber + From<i16>>(corner: (I, I), copy: i16, index: i16) -> IntPoint<I> {
    let (x, y) = corner;
    if copy == 0 {
        return IntPoint::new(x, y);
    }
    let right = (copy * 7 + index * 3) % 9 - 4;
    let up = (copy * 5 + index * 4) % 9 - 4;
    IntPoint::new(x.plus(I::from(right)), y.plus(I::from(up)))
}

// The corners of a copy.
fn copy_of<I: IntNumber + From<i16>>(corners: [(I, I); 5], copy: i16) -> [IntPoint<I>; 5] {
    [
        moved(corners[0], copy, 0),
        moved(corners[1], copy, 1),
        moved(corners[2], copy, 2),
        moved(corners[3], copy, 3),
        moved(corners[4], copy, 4),
    ]
}

// Adds the side from one corner to the next.
fn push_side<I: IntNumber>(
    rt: &impl Abort,
    content: &mut Held<I>,
    from: IntPoint<I>,
    to: IntPoint<I>,
) -> Result<(), OverlayError> {
    if compare_points(from, to).is_lt() {
        push(rt, content, edge(from.x, from.y, to.x, to.y, 1))
    } else {
        push(rt, content, edge(to.x, to.y, from.x, from.y, -1))
    }
}

// The sides of all copies.
fn sides<I: IntNumber + From<i16>>(
    rt: &impl Abort,
    alloc: Global,
    corners: [(I, I); 5],
) -> Result<Held<I>, OverlayError> {
    let mut content = Content::with_capacity(alloc, 0)?;
    for copy in 0..COUNT {
        let corners = copy_of(corners, copy);
        for index in 0..5usize {
            push_side(rt, &mut content, corners[index], corners[(index + 1) % 5])?;
        }
    }
    Ok(content)
}

// Winding of the edges round a point that lies on none of them: those below it count.
fn winding<I: IntNumber>(edges: &[CountedEdge<I, ShapeCountBoolean>], point: IntPoint<I>) -> i32 {
    let mut winding = 0;
    for e in edges {
        let begins = e.a.x.compare(point.x).is_le();
        let ends = point.x.compare(e.b.x).is_ge();
        if begins && !ends && cross_at(e.a, e.b, point).sign().is_gt() {
            winding += e.count.subj;
        }
    }
    winding
}

// The copies are snapped to this number of edges, which stay as they are, and keep the winding round each point.
macro_rules! check_copies {
    ($rt:expr, $number:ident, $greatest:expr, $corners:expr, $count:expr) => {{
        let given = sides(&$rt, $rt.alloc(), $corners)?;
        let mut snapped = sides(&$rt, $rt.alloc(), $corners)?;
        assert!($rt; snapped.arrange(Solver::SNAPPED, &mut ())?);
        assert!($rt; snapped.len() == $count);
        assert!($rt; is_settled($rt.alloc(), snapped.edges())?);
        for solver in [Solver::SNAPPED, Solver::ABSOLUTE] {
            assert!($rt; !snapped.arrange(solver, &mut ())?);
            assert!($rt; snapped.len() == $count);
        }
        let step: $number = $greatest / 5;
        for x in STEPS {
            for y in STEPS {
                let (x, y) = ($number::from(x), $number::from(y));
                let point = IntPoint::new(step * x, step * y + 100);
                assert!($rt; winding(given.edges(), point) == winding(snapped.edges(), point));
            }
        }
    }};
}

#[test]
fn copies_of_a_wide_pentagon(rt: HostRuntime) -> Result<(), Fail> {
    let corners = [
        (999999937i32, 128),
        (309016991, 951056513),
        (-809016998, 587785252),
        (-809017001, -587785249),
        (309016987, -951056512),
    ];
    check_copies!(rt, i32, 1000000000, corners, 419);
    let corners = [
        (999999937i64, 128),
        (309016991, 951056513),
        (-809016998, 587785252),
        (-809017001, -587785249),
        (309016987, -951056512),
    ];
    check_copies!(rt, i64, 1000000000, corners, 419);
    Ok(())
}

// A pentagon whose corners lie at the ends of the range.
macro_rules! far_corners {
    ($far:expr) => {{
        let far = $far;
        [
            (far - 4, 0),
            (far - 5, far - 4),
            (4 - far, far / 2),
            (4 - far, 4 - far),
            (far / 3, 4 - far),
        ]
    }};
}

#[test]
fn copies_at_the_ends_of_the_range(rt: HostRuntime) -> Result<(), Fail> {
    check_copies!(rt, i16, 16383, far_corners!(16383i16), 397);
    check_copies!(rt, i32, 1073741823, far_corners!(1073741823i32), 404);
    let far = far_corners!(4611686018427387903i64);
    check_copies!(rt, i64, 4611686018427387903, far, 397);
    Ok(())
}
