//! Holes that begin in a corner of their outline, and in one point, bound to shapes at each coordinate type.

use overlay_extract::binding::bind::bind_contours;
use overlay_geom::error::OverlayError;
use overlay_geom::number::IntNumber;
use overlay_geom::options::ContourDirection;
use overlay_geom::point::IntPoint;
use overlay_scan::list::ScanList;
use overlay_walk::contour::{Contour, Role};
use overlay_walk::step::Step;
use std::alloc::Global;
use std::process::Abort;
use std::test::Fail;

// A contour by its role and its points.
type Given = (Role, &'static [(i16, i16)]);

// Three outlines, and two holes whose anchors begin in the point (2, 3), as does the second outline. Below the anchor
// of the second hole there is the edge of that outline to (3, 0). Below the anchor of the first hole there is the upper
// edge of the second hole. So both holes go to the second outline, and none goes to the bar further below.
const GIVEN: [Given; 5] = [
    (Role::Outline(0), &[(-1, 2), (-1, 4), (-3, 4), (-3, 2)]),
    (Role::Outline(1), &[(6, 0), (6, 6), (3, 6), (2, 3), (3, 0)]),
    (Role::Outline(2), &[(0, -1), (0, -2), (10, -2), (10, -1)]),
    (Role::FreeHole, &[(2, 3), (4, 4), (4, 3)]),
    (Role::FreeHole, &[(2, 3), (4, 2), (3, 1)]),
];

// The contour, its edges numbered from this number on.
fn contour_of<I: IntNumber + From<i16>>(
    alloc: Global,
    given: &Given,
    first: usize,
) -> Result<Contour<I, Global>, OverlayError> {
    let point = |at: (i16, i16)| IntPoint::new(I::from(at.0), I::from(at.1));
    let (role, points) = *given;
    let mut steps = Vec::new(alloc);
    for place in 0..points.len() {
        let next = if place + 1 < points.len() {
            place + 1
        } else {
            0
        };
        steps.push(Step {
            from: point(points[place]),
            to: point(points[next]),
            edge: first + place,
        })?;
    }
    Ok(Contour { role, steps })
}

fn check<I: IntNumber + From<i16>>(rt: &impl Abort, alloc: Global) -> Result<(), OverlayError> {
    let mut contours = Vec::new(alloc);
    let mut count = 0;
    for given in &GIVEN {
        contours.push(contour_of::<I>(alloc, given, count)?)?;
        count += given.1.len();
    }
    let mut scan: ScanList<I, usize, Global> = ScanList::default(alloc);
    let direction = ContourDirection::CounterClockwise;
    let shapes = bind_contours(alloc, &mut scan, &contours, direction)?;
    assert!(rt; shapes.len() == 5);
    assert!(rt; shapes[3] == Some(1) && shapes[4] == Some(1));
    Ok(())
}

#[test]
fn holes_that_begin_in_one_corner(rt: HostRuntime) -> Result<(), Fail> {
    check::<i16>(&rt, rt.alloc())?;
    check::<i32>(&rt, rt.alloc())?;
    Ok(check::<i64>(&rt, rt.alloc())?)
}
