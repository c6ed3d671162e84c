//! Many points in shapes of many resolved contours.

use crate::together::{in_nested, nested, next};
use overlay_geom::path::IntShape;
use overlay_geom::point::{IntPoint, in_range};
use overlay_geom::resolved::is_resolved;
use overlay_located::contours::locate_in_contours;
use overlay_located::resolved_contours::ResolvedContours;
use overlay_relate::containment::IntPointContainment;
use overlay_relate::in_shapes::locate_in_shape;
use overlay_relate::location::PointLocation;
use overlay_relate::location::PointLocation::{Boundary, Inside, Outside};
use refusing_alloc::refusing::Refusing;
use std::alloc::{AllocError, Allocator, Global};
use std::process::Abort;
use std::test::Fail;

// Points from -low to below high, in x and in y.
fn points_between(
    alloc: Global,
    count: i32,
    low: i32,
    high: i32,
) -> Result<Vec<IntPoint<i32>, Global>, AllocError> {
    let mut points = Vec::new(alloc);
    let mut seed = 5;
    let span = (high + low) as u64;
    for _ in 0..count {
        points.push(IntPoint::new(next(&mut seed, span) - low, next(&mut seed, span) - low))?;
    }
    Ok(points)
}

// Tests that contours and points are as the calls ask.
fn check_given<A: Allocator>(rt: &impl Abort, shape: &IntShape<i32, A>, points: &[IntPoint<i32>]) {
    assert!(rt; in_range(points));
    for contour in shape {
        assert!(rt; in_range(contour) && is_resolved(contour));
    }
}

#[test]
fn nested_squares(rt: HostRuntime) -> Result<(), Fail> {
    let alloc = rt.alloc();
    let shape = nested(alloc, 300)?;
    let points = points_between(alloc, 1500, 1250, 1250)?;
    check_given(&rt, &shape, &points);
    let found = locate_in_contours(alloc, &shape, &points)?;
    assert!(&rt; found.len() == points.len());
    for (p, location) in points.iter().zip(&found) {
        assert!(&rt; *location == in_nested(300, p.x, p.y));
    }
    Ok(())
}

// The squares as a shape of its own: a point off the edges is inside where it is located so.
#[test]
fn inside_nested_squares(rt: HostRuntime) -> Result<(), Fail> {
    let alloc = rt.alloc();
    let shape = nested(alloc, 150)?;
    let points = points_between(alloc, 700, 650, 650)?;
    check_given(&rt, &shape, &points);
    let resolved = ResolvedContours { contours: &shape };
    let found = resolved.locate_points(alloc, &points)?;
    let truths = resolved.contains_points(alloc, &points)?;
    assert!(&rt; found.len() == points.len() && truths.len() == points.len());
    for (place, p) in points.iter().enumerate() {
        let expected = in_nested(150, p.x, p.y);
        assert!(&rt; found[place] == expected);
        assert!(&rt; expected == Boundary || truths[place] == (expected == Inside));
    }
    Ok(())
}

// Squares of 4 units, side by side: each inner edge is an edge of two.
fn tiles(alloc: Global, count: i32) -> Result<IntShape<i32, Global>, AllocError> {
    let mut shape = Vec::new(alloc);
    for row in 0..count {
        for column in 0..count {
            let (x, y) = (4 * column, 4 * row);
            let square = [[x, y], [x + 4, y], [x + 4, y + 4], [x, y + 4]];
            shape.push(Vec::from_array(alloc, square.map(|at| IntPoint::new(at[0], at[1])))?)?;
        }
    }
    Ok(shape)
}

// An edge of two squares is a boundary too, as exclusive or joins contours and not edges.
#[test]
fn squares_side_by_side(rt: HostRuntime) -> Result<(), Fail> {
    let alloc = rt.alloc();
    let shape = tiles(alloc, 20)?;
    let points = points_between(alloc, 2000, 5, 86)?;
    check_given(&rt, &shape, &points);
    let found = locate_in_contours(alloc, &shape, &points)?;
    assert!(&rt; found.len() == points.len());
    for (p, location) in points.iter().zip(&found) {
        let expected = if p.x < 0 || p.y < 0 || p.x > 80 || p.y > 80 {
            Outside
        } else if p.x % 4 == 0 || p.y % 4 == 0 {
            Boundary
        } else {
            Inside
        };
        assert!(&rt; *location == expected);
    }
    Ok(())
}

// Triangles that cross, touch and overlap on a small grid, and on a large one: each location is as it is told contour
// by contour.
#[test]
fn as_contour_by_contour(rt: HostRuntime) -> Result<(), Fail> {
    let alloc = rt.alloc();
    let mut seed = 11;
    for grid in [6_u64, 40, 100_000] {
        let mut shape: IntShape<i32, _> = Vec::new(alloc);
        while shape.len() < 100 {
            let mut triangle = Vec::new(alloc);
            for _ in 0..3 {
                triangle.push(IntPoint::new(next(&mut seed, grid), next(&mut seed, grid)))?;
            }
            assert!(&rt; in_range(&triangle));
            if is_resolved(&triangle) {
                shape.push(triangle)?;
            }
        }
        let points = points_between(alloc, 300, 1, grid as i32)?;
        check_given(&rt, &shape, &points);
        let found = locate_in_contours(alloc, &shape, &points)?;
        assert!(&rt; found == locate_in_shape(alloc, &shape, &points)?);
    }
    Ok(())
}

// The corner of 100 squares lies on 200 edges.
#[test]
fn edges_through_one_point(rt: HostRuntime) -> Result<(), Fail> {
    let alloc = rt.alloc();
    let mut shape: IntShape<i32, _> = Vec::new(alloc);
    for n in 1..101 {
        let square = [[0, 0], [4 * n, 0], [4 * n, 4 * n], [0, 4 * n]];
        shape.push(Vec::from_array(alloc, square.map(|at| IntPoint::new(at[0], at[1])))?)?;
    }
    for corners in [1, 50, 100] {
        let mut points = Vec::new(alloc);
        for n in 0..100 {
            let at = if n < corners { 0 } else { 4 * n + 2 };
            points.push(IntPoint::new(at, at))?;
        }
        check_given(&rt, &shape, &points);
        let found = locate_in_contours(alloc, &shape, &points)?;
        for (p, location) in points.iter().zip(&found) {
            // (at 4 n + 2 the squares from n + 1 to 100 are round the point)
            let expected = match p.x {
                0 => Boundary,
                x if (100 - x / 4) % 2 == 1 => Inside,
                _ => Outside,
            };
            assert!(&rt; *location == expected);
        }
    }
    Ok(())
}

// Where memory is refused, so is the call, or the locations are as they are otherwise.
#[test]
fn memory_is_refused(rt: HostRuntime) -> Result<(), Fail> {
    let alloc = rt.alloc();
    let memory = Refusing::new(alloc, 10_000);
    let shape = nested(alloc, 80)?;
    let points = points_between(alloc, 100, 350, 350)?;
    check_given(&rt, &shape, &points);
    let mut answered = 0;
    for granted in 0..400 {
        memory.grant(granted);
        let Ok(found) = locate_in_contours(&memory, &shape, &points) else {
            continue;
        };
        answered += 1;
        for (p, location) in points.iter().zip(&found) {
            let expected: PointLocation = in_nested(80, p.x, p.y);
            assert!(&rt; *location == expected);
        }
    }
    assert!(&rt; answered > 0);
    Ok(())
}
