//! Relations of contours that reach the ends of the coordinate range, at each coordinate type.

use crate::asked::{CROSSING, IN_POINTS, TOUCHING, WITHIN, assert_shapes, counter_clockwise};
use overlay_exact::exact_int::ExactInt;
use overlay_geom::path::IntShape;
use overlay_geom::point::{IntPoint, in_range};
use std::alloc::Global;
use std::process::Abort;
use std::test::Fail;

// A coordinate type with its greatest coordinate.
trait Wide: ExactInt {
    // The greatest coordinate, times the sign, and more.
    fn at(sign: i64, more: i64) -> Self;
}

impl Wide for i16 {
    fn at(sign: i64, more: i64) -> i16 {
        (sign * 16383 + more) as i16
    }
}

impl Wide for i32 {
    fn at(sign: i64, more: i64) -> i32 {
        (sign * 1073741823 + more) as i32
    }
}

impl Wide for i64 {
    fn at(sign: i64, more: i64) -> i64 {
        sign * 4611686018427387903 + more
    }
}

// A point near a corner of the range: the signs of its coordinates, and how much is added to its y-coordinate.
type Near = (i64, i64, i64);

// Half of the range: what lies above its diagonal.
const HALF: [Near; 3] = [(-1, -1, 0), (1, 1, 0), (-1, 1, 0)];

// Returns the shape of one contour through the points.
fn shape_near<I: Wide>(
    rt: &impl Abort,
    alloc: Global,
    places: &[Near],
) -> Result<IntShape<I, Global>, Fail> {
    let mut contour = Vec::new(alloc);
    for place in places {
        let (x, y, more) = *place;
        contour.push(IntPoint::new(I::at(x, 0), I::at(y, more)))?;
    }
    assert!(rt; in_range(&contour));
    let mut shape = Vec::new(alloc);
    shape.push(contour)?;
    Ok(shape)
}

// Below the diagonal, below it but for its start, across it, or all of the range. What lies across it has a border that
// starts 1 above the diagonal and ends 4 below it, so that the two cross after two fifths of the way. Above the
// diagonal it is a sliver lower than a unit. All run counter-clockwise.
fn check<I: Wide>(rt: &impl Abort, alloc: Global) -> Result<(), Fail> {
    let half = shape_near::<I>(rt, alloc, &HALF)?;
    let asked = [
        ([(-1, -1, 0), (1, -1, 0), (1, 1, 0)], TOUCHING),
        ([(-1, -1, 0), (1, -1, 0), (1, 1, -1)], IN_POINTS),
        ([(-1, -1, 1), (1, -1, 0), (1, 1, -4)], CROSSING),
    ];
    for (clip, wanted) in asked {
        let clip = shape_near(rt, alloc, &clip)?;
        assert_shapes(rt, alloc, &half, &clip, counter_clockwise(wanted))?;
    }
    let whole = shape_near(rt, alloc, &[(-1, -1, 0), (1, -1, 0), (1, 1, 0), (-1, 1, 0)])?;
    assert_shapes(rt, alloc, &half, &whole, counter_clockwise(WITHIN))
}

#[test]
fn ends_of_the_range(rt: HostRuntime) -> Result<(), Fail> {
    check::<i16>(&rt, rt.alloc())?;
    check::<i32>(&rt, rt.alloc())?;
    check::<i64>(&rt, rt.alloc())
}
