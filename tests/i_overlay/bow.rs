//! The largest bow, asked by each query, at each coordinate type.

use crate::wide::{
    Places, Wide, check_lone, point_at, wide_builder, wide_contour, wide_shape, wide_shapes,
};
use i_overlay::fill_rule::FillRule;
use i_overlay::overlay::IntOverlayOptions;
use i_overlay::overlay_rule::OverlayRule;
use i_overlay::point_location::{IntPointContainment, PointLocation};
use i_overlay::relate::IntRelate;
use i_overlay::string::clip::{ClipRule, IntClip};
use i_overlay::string::slice::IntSlice;
use overlay_geom::error::OverlayError;
use overlay_geom::path::PathRef;
use std::alloc::Global;
use std::process::Abort;
use std::test::Fail;

const RULE: FillRule = FillRule::NonZero;

// The bow between the corners of the range, which crosses itself in the middle.
fn bow<I: Wide>() -> [(i64, i64); 4] {
    let m = I::most();
    [(-m, -m), (m, m), (m, -m), (-m, m)]
}

fn check_overlays<I: Wide>(rt: &impl Abort, alloc: Global) -> Result<(), OverlayError> {
    let m = I::most();
    let (bow, none): ([(i64, i64); 4], &[Places<'_>]) = (bow::<I>(), &[]);
    let left: Places<'_> = &[(-m, m), (-m, -m), (0, 0)];
    let right: Places<'_> = &[(m, m), (0, 0), (m, -m)];
    let subject = OverlayRule::Subject;
    let (halves, one, other): (&[Places<'_>], &[Places<'_>], &[Places<'_>]) = (
        &[left, right],
        &[left],
        &[right],
    );
    for (fill, wanted) in [
        (RULE, halves),
        (FillRule::EvenOdd, halves),
        (FillRule::Positive, one),
        (FillRule::Negative, other),
    ] {
        check_lone::<I>(rt, alloc, [&[&bow], none], subject, fill, wanted)?;
    }
    let mut overlay = wide_builder::<I>(rt, alloc, &[&bow], none, IntOverlayOptions::default())?;
    let hierarchy = overlay.overlay_hierarchy(subject, RULE)?;
    let shapes = wide_shapes::<I>(rt, alloc, &[&[left], &[right]])?;
    assert!(rt; hierarchy.links.len() == 0 && hierarchy.shapes.to_shapes()? == shapes);
    let vectors = overlay.build_shape_vectors(RULE, subject)?;
    assert!(rt; vectors.len() == 2);
    for shape in vectors {
        assert!(rt; shape.len() == 1 && shape[0].len() == 3);
        for edge in &shape[0] {
            assert!(rt; edge.fill == 1);
        }
    }
    Ok(())
}

#[test]
fn overlays_of_a_bow(rt: HostRuntime) -> Result<(), Fail> {
    each_wide!(rt, check_overlays)
}

// Tests whether a clip of a line by the bow gives this path alone, or none.
fn clips<I: Wide>(
    rt: &impl Abort,
    alloc: Global,
    line: [(i64, i64); 2],
    rule: (bool, bool),
    path: Places<'_>,
) -> Result<bool, OverlayError> {
    let contour = wide_contour::<I>(rt, alloc, &bow::<I>())?;
    let (invert, boundary_included) = rule;
    let clip_rule = ClipRule {
        invert,
        boundary_included,
    };
    let line = [point_at(line[0]), point_at(line[1])];
    let paths = PathRef::new(&contour).clip_line(alloc, line, RULE, clip_rule)?;
    if path.len() == 0 {
        return Ok(paths.len() == 0);
    }
    Ok(paths.len() == 1 && paths[0] == wide_contour::<I>(rt, alloc, path)?)
}

fn check_clips<I: Wide>(rt: &impl Abort, alloc: Global) -> Result<(), OverlayError> {
    let m = I::most();
    for diagonal in [[(-m, -m), (m, m)], [(-m, m), (m, -m)]] {
        let whole: Places<'_> = &[diagonal[0], (0, 0), diagonal[1]];
        assert!(rt; clips::<I>(rt, alloc, diagonal, (false, false), &[])?);
        assert!(rt; clips::<I>(rt, alloc, diagonal, (true, false), &[])?);
        assert!(rt; clips::<I>(rt, alloc, diagonal, (false, true), whole)?);
        assert!(rt; clips::<I>(rt, alloc, diagonal, (true, true), whole)?);
    }
    let (level, upright) = ([(-m, 0), (m, 0)], [(0, -m), (0, m)]);
    assert!(rt; clips::<I>(rt, alloc, level, (false, false), &[(-m, 0), (0, 0), (m, 0)])?);
    assert!(rt; clips::<I>(rt, alloc, level, (true, true), &[])?);
    assert!(rt;
        clips::<I>(
            rt,
            alloc,
            upright,
            (true, false),
            &[(0, -m), (0, 0), (0, m)]
        )?
    );
    assert!(rt; clips::<I>(rt, alloc, upright, (false, true), &[])?);
    Ok(())
}

#[test]
fn clips_by_a_bow(rt: HostRuntime) -> Result<(), Fail> {
    each_wide!(rt, check_clips)
}

fn check_slices<I: Wide>(rt: &impl Abort, alloc: Global) -> Result<(), OverlayError> {
    let m = I::most();
    let contour = wide_contour::<I>(rt, alloc, &bow::<I>())?;
    let level = [point_at((-m, 0)), point_at((m, 0))];
    let quarters: [&[Places<'_>]; 4] = [
        &[&[(0, 0), (-m, 0), (-m, -m)]],
        &[&[(0, 0), (-m, m), (-m, 0)]],
        &[&[(0, 0), (m, -m), (m, 0)]],
        &[&[(0, 0), (m, 0), (m, m)]],
    ];
    let slices = PathRef::new(&contour).slice_by_line(alloc, level, RULE)?;
    assert!(rt; slices == wide_shapes::<I>(rt, alloc, &quarters)?);
    Ok(())
}

#[test]
fn slices_of_a_bow(rt: HostRuntime) -> Result<(), Fail> {
    each_wide!(rt, check_slices)
}

fn check_relations<I: Wide>(rt: &impl Abort, alloc: Global) -> Result<(), OverlayError> {
    let m = I::most();
    let contour = wide_contour::<I>(rt, alloc, &bow::<I>())?;
    let above = wide_contour::<I>(rt, alloc, &[(0, 0), (m, m), (-m, m)])?;
    let bow = PathRef::new(&contour);
    for (other, wanted) in [
        (
            PathRef::new(&contour),
            [true, true, false, false, true, false, true],
        ),
        (
            PathRef::new(&above),
            [true, false, true, false, false, false, false],
        ),
    ] {
        let told = [
            bow.intersects(alloc, &other)?,
            bow.interiors_intersect(alloc, &other)?,
            bow.touches(alloc, &other)?,
            bow.point_intersects(alloc, &other)?,
            bow.within(alloc, &other)?,
            bow.disjoint(alloc, &other)?,
            bow.covers(alloc, &other)?,
        ];
        assert!(rt; told == wanted);
    }
    Ok(())
}

#[test]
fn relations_of_a_bow(rt: HostRuntime) -> Result<(), Fail> {
    each_wide!(rt, check_relations)
}

// Locations of the corners of the bow, and of points beside and between them, in the two triangles that it fills.
fn check_points<I: Wide>(rt: &impl Abort, alloc: Global) -> Result<(), OverlayError> {
    let m = I::most();
    let halves: &[Places<'_>] = &[&[(-m, m), (-m, -m), (0, 0)], &[(m, m), (0, 0), (m, -m)]];
    let shape = wide_shape::<I>(rt, alloc, halves)?;
    let places = [
        (-m, -m),
        (m, m),
        (m, -m),
        (-m, m),
        (0, 0),
        (m, 0),
        (1, 0),
        (1 - m, m - 2),
        (0, m),
        (0, -1),
        (1 - m, -m),
    ];
    let located = shape.locate_points(alloc, &wide_contour::<I>(rt, alloc, &places)?)?;
    for (at, location) in located.iter().enumerate() {
        let wanted = match at {
            0..=5 => PointLocation::Boundary,
            6 | 7 => PointLocation::Inside,
            _ => PointLocation::Outside,
        };
        assert!(rt; *location == wanted, "point {at}");
    }
    Ok(())
}

#[test]
fn points_in_a_bow(rt: HostRuntime) -> Result<(), Fail> {
    each_wide!(rt, check_points)
}
