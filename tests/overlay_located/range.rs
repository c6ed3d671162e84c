//! Points at the ends of the coordinate range and past it.

use overlay_geom::fill_rule::FillRule;
use overlay_geom::integer::OverlayInt;
use overlay_geom::path::IntShape;
use overlay_geom::point::{IntPoint, in_range};
use overlay_located::exact_shape::ExactShape;
use overlay_relate::location::PointLocation::{Boundary, Inside, Outside};
use std::alloc::Global;
use std::process::Abort;
use std::test::Fail;

// A triangle over half the range, whose long edge passes through (0, 0), by the greatest coordinate.
fn at_the_ends<I: OverlayInt + From<i16>>(
    rt: &impl Abort,
    alloc: Global,
    low: I,
    high: I,
    past: [I; 2],
    least: I,
    greatest: I,
) -> Result<(), Fail> {
    let corners = [
        IntPoint::new(low, low),
        IntPoint::new(high, low),
        IntPoint::new(high, high),
    ];
    assert!(rt; in_range(&corners));
    let mut shape: IntShape<I, Global> = Vec::new(alloc);
    shape.push(Vec::from_array(alloc, corners)?)?;
    let exact = ExactShape::new(alloc, &shape, FillRule::NonZero)?;
    let [zero, one, less] = [I::from(0), I::from(1), I::from(-1)];
    let rows = [
        (low, low, Boundary),
        (high, high, Boundary),
        (zero, zero, Boundary),
        (one, zero, Inside),
        (less, zero, Outside),
        (zero, low, Boundary),
        (high, one, Boundary),
        (zero, past[0], Outside),
        (zero, past[1], Outside),
        (past[0], low, Outside),
        (past[1], one, Outside),
        (high, past[1], Outside),
        (greatest, greatest, Outside),
        (least, least, Outside),
        (one, greatest, Outside),
        (one, least, Outside),
        (greatest, zero, Outside),
        (least, zero, Outside),
    ];
    for (x, y, wanted) in rows {
        assert!(rt; exact.locate(IntPoint::new(x, y)) == wanted);
    }
    Ok(())
}

#[test]
fn ends_of_the_range(rt: HostRuntime) -> Result<(), Fail> {
    let alloc = rt.alloc();
    let past: [i16; 2] = [-16384, 16384];
    at_the_ends::<i16>(&rt, alloc, -16383, 16383, past, i16::MIN, i16::MAX)?;
    let past: [i32; 2] = [-1073741824, 1073741824];
    let high = 1073741823;
    at_the_ends::<i32>(&rt, alloc, -high, high, past, i32::MIN, i32::MAX)?;
    let past: [i64; 2] = [-4611686018427387904, 4611686018427387904];
    let high = 4611686018427387903;
    at_the_ends::<i64>(&rt, alloc, -high, high, past, i64::MIN, i64::MAX)
}
