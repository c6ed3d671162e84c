//! Relations of two resources, in one call each, at each coordinate type.

use i_overlay::relate::IntRelate;
use overlay_geom::error::OverlayError;
use overlay_geom::integer::OverlayInt;
use small_points::contours::{assert_in_range, contour_of, shape_of};
use std::alloc::Global;
use std::process::Abort;
use std::test::Fail;

// Answers of the calls for a contour and for a shape of one contour, in the order intersects, interiors_intersect,
// touches, point_intersects, within, disjoint, covers.
fn answers<I: OverlayInt + From<i16>>(
    rt: &impl Abort,
    alloc: Global,
    subj: &[(i16, i16)],
    clip: &[(i16, i16)],
) -> Result<[bool; 7], OverlayError> {
    let subj = contour_of::<I>(alloc, subj)?;
    let clip = shape_of::<I>(alloc, &[clip])?;
    assert_in_range(rt, &subj);
    assert_in_range(rt, &clip);
    Ok([
        subj.intersects(alloc, &clip)?,
        subj.interiors_intersect(alloc, &clip)?,
        subj.touches(alloc, &clip)?,
        subj.point_intersects(alloc, &clip)?,
        subj.within(alloc, &clip)?,
        subj.disjoint(alloc, &clip)?,
        subj.covers(alloc, &clip)?,
    ])
}

fn rows<I: OverlayInt + From<i16>>(rt: &impl Abort, alloc: Global) -> Result<(), OverlayError> {
    let square = [(0, 0), (2, 0), (2, 2), (0, 2)];
    let corner = answers::<I>(rt, alloc, &square, &[(2, 2), (4, 2), (4, 4), (2, 4)])?;
    assert!(rt; corner == [true, false, true, true, false, false, false]);
    let border = answers::<I>(rt, alloc, &square, &[(2, 0), (4, 0), (4, 2), (2, 2)])?;
    assert!(rt; border == [true, false, true, false, false, false, false]);
    let itself = answers::<I>(rt, alloc, &square, &square)?;
    assert!(rt; itself == [true, true, false, false, true, false, true]);
    let apart = answers::<I>(rt, alloc, &square, &[(9, 9), (10, 9), (10, 10), (9, 10)])?;
    assert!(rt; apart == [false, false, false, false, false, true, false]);
    let outer = [(0, 0), (4, 0), (4, 4), (0, 4)];
    let inside = answers::<I>(rt, alloc, &[(1, 1), (3, 1), (3, 3), (1, 3)], &outer)?;
    assert!(rt; inside == [true, true, false, false, true, false, false]);
    // without edges, the two are only disjoint; an empty subject is so too
    let disjoint_alone = [false, false, false, false, false, true, false];
    assert!(rt; answers::<I>(rt, alloc, &[], &[])? == disjoint_alone);
    assert!(rt; answers::<I>(rt, alloc, &[], &square)? == disjoint_alone);
    Ok(())
}

#[test]
fn relations_at_i16(rt: HostRuntime) -> Result<(), Fail> {
    Ok(rows::<i16>(&rt, rt.alloc())?)
}

#[test]
fn relations_at_i32(rt: HostRuntime) -> Result<(), Fail> {
    Ok(rows::<i32>(&rt, rt.alloc())?)
}

#[test]
fn relations_at_i64(rt: HostRuntime) -> Result<(), Fail> {
    Ok(rows::<i64>(&rt, rt.alloc())?)
}
