//! Many points that are asked for together.

use overlay_geom::fill_rule::FillRule;
use overlay_geom::path::IntShape;
use overlay_geom::point::{IntPoint, in_range};
use overlay_located::exact_shape::ExactShape;
use overlay_relate::location::PointLocation;
use overlay_relate::location::PointLocation::{Boundary, Inside, Outside};
use refusing_alloc::refusing::Refusing;
use std::alloc::{AllocError, Allocator, Global};
use std::test::Fail;

// Numbers that look random: each follows from the one before.
pub(crate) fn next(seed: &mut u64, below: u64) -> i32 {
    *seed = seed
        .wrapping_mul(6364136223846793005)
        .wrapping_add(1442695040888963407);
    ((*seed >> 33) % below) as i32
}

// Squares round the origin, 4 units apart.
pub(crate) fn nested<A: Allocator + Clone>(
    alloc: A,
    count: i32,
) -> Result<IntShape<i32, A>, AllocError> {
    let mut shape: IntShape<i32, A> = Vec::new(alloc.clone()?);
    for n in 1..count + 1 {
        let r = 4 * n;
        let square = [[-r, -r], [r, -r], [r, r], [-r, r]];
        shape.push(Vec::from_array(alloc.clone()?, square.map(|at| IntPoint::new(at[0], at[1])))?)?;
    }
    Ok(shape)
}

// Where a point lies under EvenOdd in squares nested so: it is r units from the origin, by the greater coordinate.
pub(crate) fn in_nested(count: i32, x: i32, y: i32) -> PointLocation {
    let r = if x.abs() < y.abs() { y.abs() } else { x.abs() };
    if r >= 4 && r % 4 == 0 && r <= 4 * count {
        Boundary
    } else if r < 4 * count && (count - r / 4) % 2 == 1 {
        Inside
    } else {
        Outside
    }
}

#[test]
fn nested_squares(rt: HostRuntime) -> Result<(), Fail> {
    let alloc = rt.alloc();
    let shape = nested(alloc, 300)?;
    for contour in &shape {
        assert!(&rt; in_range(contour));
    }
    let exact = ExactShape::new(alloc, &shape, FillRule::EvenOdd)?;
    let mut points = Vec::new(alloc);
    let mut seed = 1;
    for _ in 0..1500 {
        points.push(IntPoint::new(next(&mut seed, 2500) - 1250, next(&mut seed, 2500) - 1250))?;
    }
    let mut out = Vec::new(alloc);
    out.resize(points.len(), Outside)?;
    exact.locate_all(&points, &mut out);
    for (p, found) in points.iter().zip(&out) {
        assert!(&rt; *found == in_nested(300, p.x, p.y));
    }
    Ok(())
}

// Contours that cross, touch, overlap and repeat, of corners on a small grid: each location is as it is told alone.
#[test]
fn as_alone(rt: HostRuntime) -> Result<(), Fail> {
    let alloc = rt.alloc();
    let mut seed = 7;
    for (contours, corners, grid) in [
        (1, 200, 1000),
        (1, 80, 12),
        (30, 3, 40),
        (40, 4, 7),
        (200, 3, 100_000),
    ] {
        let mut shape: IntShape<i32, _> = Vec::new(alloc);
        for _ in 0..contours {
            let mut contour = Vec::new(alloc);
            for _ in 0..corners {
                contour.push(IntPoint::new(next(&mut seed, grid), next(&mut seed, grid)))?;
            }
            assert!(&rt; in_range(&contour));
            shape.push(contour)?;
        }
        let mut points = Vec::new(alloc);
        for _ in 0..300 {
            points.push(IntPoint::new(next(&mut seed, grid), next(&mut seed, grid)))?;
        }
        for rule in [
            FillRule::EvenOdd,
            FillRule::NonZero,
            FillRule::Positive,
            FillRule::Negative,
        ] {
            let exact = ExactShape::new(alloc, &shape, rule)?;
            assert!(&rt; all_as_alone(alloc, &exact, &points)?);
        }
    }
    Ok(())
}

// Tests whether each location told together is that told alone.
fn all_as_alone<A: Allocator + Clone>(
    alloc: Global,
    exact: &ExactShape<i32, A>,
    points: &[IntPoint<i32>],
) -> Result<bool, AllocError> {
    let mut out = Vec::new(alloc);
    out.resize(points.len(), Outside)?;
    exact.locate_all(points, &mut out);
    for (p, found) in points.iter().zip(&out) {
        if exact.locate(*p) != *found {
            return Ok(false);
        }
    }
    Ok(true)
}

// Where memory is refused, the locations are as they are otherwise.
#[test]
fn memory_is_refused(rt: HostRuntime) -> Result<(), Fail> {
    let alloc = rt.alloc();
    let memory = Refusing::new(alloc, 10_000);
    let shape = nested(alloc, 20)?;
    for contour in &shape {
        assert!(&rt; in_range(contour));
    }
    let exact = ExactShape::new(&memory, &shape, FillRule::EvenOdd)?;
    let mut points = Vec::new(alloc);
    let mut seed = 3;
    for _ in 0..100 {
        points.push(IntPoint::new(next(&mut seed, 200) - 100, next(&mut seed, 200) - 100))?;
    }
    let mut out = Vec::new(alloc);
    out.resize(points.len(), Outside)?;
    for granted in 0..100 {
        memory.grant(granted);
        exact.locate_all(&points, &mut out);
        for (p, found) in points.iter().zip(&out) {
            assert!(&rt; *found == in_nested(20, p.x, p.y));
        }
    }
    Ok(())
}

// No points, and no edges.
#[test]
fn none(rt: HostRuntime) -> Result<(), Fail> {
    let alloc = rt.alloc();
    let shape: IntShape<i32, _> = Vec::new(alloc);
    let exact = ExactShape::new(alloc, &shape, FillRule::NonZero)?;
    let mut out = [Inside; 2];
    exact.locate_all(&[IntPoint::new(0, 0), IntPoint::new(1, 0)], &mut out);
    assert!(&rt; out[0] == Outside && out[1] == Outside);
    exact.locate_all(&[], &mut []);
    Ok(())
}
