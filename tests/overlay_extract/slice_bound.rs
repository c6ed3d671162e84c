//! The contours of slices that reach a minimum area, and the shapes of the holes among them, at each coordinate type.

use crate::by_scan::slice_contours_by;
use overlay_extract::slicing::sliced_shapes::sliced_shapes;
use overlay_extract::slicing::slices::{SliceContours, slice_contours};
use overlay_geom::number::IntNumber;
use overlay_geom::options::ContourDirection;
use overlay_scan::list::ScanList;
use overlay_scan::tree::ScanTree;
use overlay_walk::contour::Role;
use small_points::contours::{Points, shapes_of};
use small_points::slice_graphs::{INNER, OUTER_AND_INNER, SQUARE, graph_of};
use std::alloc::Global;
use std::process::Abort;
use std::test::Fail;

// A square of 2 in the inner square, as a closed string.
const INMOST: Points<'static> = &[(-1, -1), (-1, 1), (1, 1), (1, -1), (-1, -1)];

// Returns whether the contours have these roles, and the holes among them these shapes.
fn are<I: IntNumber>(slices: &SliceContours<I, Global>, wanted: &[(Role, Option<usize>)]) -> bool {
    if slices.contours.len() != wanted.len() || slices.shapes.len() != wanted.len() {
        return false;
    }
    for i in 0..wanted.len() {
        let (role, shape) = wanted[i];
        if slices.contours[i].role != role {
            return false;
        }
        if role == Role::FreeHole && slices.shapes[i] != shape {
            return false;
        }
    }
    true
}

// Each hole stands in the shape round it, also with trees alone and with lists alone.
fn holes<I: IntNumber + From<i16>>(
    rt: &impl Abort,
    alloc: Global,
    zero: I::WideUInt,
) -> Result<(), Fail> {
    let graph = graph_of::<I>(rt, alloc, &[SQUARE], &[INNER, INMOST])?;
    let wanted = [
        (Role::Outline(0), None),
        (Role::FreeHole, Some(0)),
        (Role::Outline(1), None),
        (Role::FreeHole, Some(1)),
        (Role::Outline(2), None),
    ];
    assert!(rt; are(&slice_contours(&graph, zero)?, &wanted));
    let by_trees = slice_contours_by(&graph, zero, &mut ScanTree::default(alloc))?;
    let by_lists = slice_contours_by(&graph, zero, &mut ScanList::default(alloc))?;
    assert!(rt; are(&by_trees, &wanted) && are(&by_lists, &wanted));
    Ok(())
}

// Contours of an area of 4 are left out where the minimum is 5, and kept where it is 4.
fn minimum<I: IntNumber + PartialEq + From<i16>>(
    rt: &impl Abort,
    alloc: Global,
    four: I::WideUInt,
    five: I::WideUInt,
) -> Result<(), Fail> {
    let graph = graph_of::<I>(rt, alloc, &[SQUARE], &[INNER, INMOST])?;
    assert!(rt; slice_contours(&graph, four)?.contours.len() == 5);
    let direction = ContourDirection::CounterClockwise;
    let wanted = shapes_of::<I>(alloc, OUTER_AND_INNER)?;
    assert!(rt; sliced_shapes(&graph, direction, five)? == wanted);
    assert!(rt; sliced_shapes(&graph, direction, four)?.len() == 3);
    Ok(())
}

#[test]
fn holes_of_slices(rt: HostRuntime) -> Result<(), Fail> {
    holes::<i16>(&rt, rt.alloc(), 0)?;
    holes::<i32>(&rt, rt.alloc(), 0)?;
    holes::<i64>(&rt, rt.alloc(), 0)
}

#[test]
fn slices_of_a_minimum_area(rt: HostRuntime) -> Result<(), Fail> {
    minimum::<i16>(&rt, rt.alloc(), 4, 5)?;
    minimum::<i32>(&rt, rt.alloc(), 4, 5)?;
    minimum::<i64>(&rt, rt.alloc(), 4, 5)
}
