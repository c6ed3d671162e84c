//! Shapes sliced along strings in one call, on worked rows, at each coordinate type.

use crate::points::{NARROW, SQUARE, WIDE, are_shapes, line_of};
use overlay_geom::fill_rule::FillRule;
use overlay_geom::integer::OverlayInt;
use overlay_geom::path::{IntLine, IntShapes};
use overlay_geom::point::in_range;
use overlay_geom::resource::borrowed::BorrowedContours;
use overlay_string::lines::BorrowedLines;
use overlay_string::slice::IntSlice;
use small_points::contours::{Points, assert_in_range, contour_of, shape_of};
use std::alloc::Global;
use std::process::Abort;
use std::test::Fail;

// The line through the middle of the wide square, and the halves into which it cuts it.
const MIDDLE: Points<'static> = &[(-20, 0), (20, 0)];

const HALVES: &[&[Points<'static>]] = &[
    &[&[(10, -10), (10, 0), (-10, 0), (-10, -10)]],
    &[&[(10, 0), (10, 10), (-10, 10), (-10, 0)]],
];

// A square of 4 round the origin, and its only slice where no line cuts it.
const CORNERS: Points<'static> = &[(-2, -2), (2, -2), (2, 2), (-2, 2)];

const UNCUT: &[&[Points<'static>]] = &[&[&[(2, -2), (2, 2), (-2, 2), (-2, -2)]]];

// A rectangle with two square holes beside each other.
const TWO_HOLES: &[Points<'static>] = &[
    &[(0, 0), (35, 0), (35, 20), (0, 20)],
    &[(5, 5), (5, 15), (15, 15), (15, 5)],
    &[(20, 5), (20, 15), (30, 15), (30, 5)],
];

// The shapes into which a line cuts the contours, by a fill rule.
fn by_line<I: OverlayInt + From<i16>>(
    rt: &impl Abort,
    alloc: Global,
    contours: &[Points<'_>],
    line: Points<'_>,
    fill_rule: FillRule,
) -> Result<IntShapes<I, Global>, Fail> {
    assert!(rt; line.len() == 2);
    let shape = shape_of::<I>(alloc, contours)?;
    assert_in_range(rt, &shape);
    let line: IntLine<I> = line_of(line[0], line[1]);
    assert!(rt; in_range(&line));
    Ok(shape.slice_by_line(alloc, line, fill_rule)?)
}

// Those into which two lines cut them.
fn by_lines<I: OverlayInt + From<i16>>(
    rt: &impl Abort,
    alloc: Global,
    contours: &[Points<'_>],
    lines: [IntLine<I>; 2],
) -> Result<IntShapes<I, Global>, Fail> {
    let shape = shape_of::<I>(alloc, contours)?;
    assert_in_range(rt, &shape);
    let borrowed = BorrowedLines { lines: &lines };
    assert_in_range(rt, &borrowed);
    Ok(shape.slice_by_lines(alloc, borrowed.lines, FillRule::NonZero)?)
}

// The shapes into which a path cuts a contour.
fn by_path<I: OverlayInt + From<i16>>(
    rt: &impl Abort,
    alloc: Global,
    contour: Points<'_>,
    path: Points<'_>,
) -> Result<IntShapes<I, Global>, Fail> {
    let shape = contour_of::<I>(alloc, contour)?;
    assert_in_range(rt, &shape);
    let path = contour_of::<I>(alloc, path)?;
    assert!(rt; in_range(&path));
    Ok(shape.slice_by_path(alloc, &path, FillRule::NonZero)?)
}

// Those into which a list of paths cuts it.
fn by_paths<I: OverlayInt + From<i16>>(
    rt: &impl Abort,
    alloc: Global,
    contour: Points<'_>,
    paths: &[Points<'_>],
) -> Result<IntShapes<I, Global>, Fail> {
    let shape = contour_of::<I>(alloc, contour)?;
    assert_in_range(rt, &shape);
    let paths = shape_of::<I>(alloc, paths)?;
    let borrowed = BorrowedContours { contours: &paths };
    assert_in_range(rt, &borrowed);
    Ok(shape.slice_by_paths(alloc, borrowed.contours, FillRule::NonZero)?)
}

// Those into which the paths of another resource cut it.
fn by_source<I: OverlayInt + From<i16>>(
    rt: &impl Abort,
    alloc: Global,
    contour: Points<'_>,
    paths: &[Points<'_>],
) -> Result<IntShapes<I, Global>, Fail> {
    let shape = contour_of::<I>(alloc, contour)?;
    assert_in_range(rt, &shape);
    let paths = shape_of::<I>(alloc, paths)?;
    assert_in_range(rt, &paths);
    Ok(shape.slice_by_source(alloc, &paths, FillRule::NonZero)?)
}

// Tests whether a line cuts the contours into these shapes.
fn cuts<I: OverlayInt + PartialEq + From<i16>>(
    rt: &impl Abort,
    alloc: Global,
    contours: &[Points<'_>],
    line: Points<'_>,
    wanted: &[&[Points<'_>]],
) -> Result<bool, Fail> {
    let shapes = by_line::<I>(rt, alloc, contours, line, FillRule::NonZero)?;
    Ok(are_shapes(alloc, &shapes, wanted)?)
}

// Tests whether the line through the middle cuts the wide square so by a fill rule.
fn fills<I: OverlayInt + PartialEq + From<i16>>(
    rt: &impl Abort,
    alloc: Global,
    fill_rule: FillRule,
    wanted: &[&[Points<'_>]],
) -> Result<bool, Fail> {
    let shapes = by_line::<I>(rt, alloc, &[WIDE], MIDDLE, fill_rule)?;
    Ok(are_shapes(alloc, &shapes, wanted)?)
}

// Tests whether a line that ends inside cuts nothing; its point on the side stays.
fn ends_inside<I: OverlayInt + PartialEq + From<i16>>(
    rt: &impl Abort,
    alloc: Global,
) -> Result<bool, Fail> {
    let wanted: &[&[Points<'_>]] = &[&[&[(4, 0), (4, 4), (0, 4), (0, 2), (0, 0)]]];
    cuts::<I>(rt, alloc, &[SQUARE], &[(-1, 2), (2, 2)], wanted)
}

// Tests whether a line through the hole of a ring cuts it into two shapes of eight points.
fn cuts_a_ring<I: OverlayInt + PartialEq + From<i16>>(
    rt: &impl Abort,
    alloc: Global,
) -> Result<bool, Fail> {
    let wanted: &[&[Points<'_>]] = &[
        &[&[
            (10, -10),
            (10, 0),
            (5, 0),
            (5, -5),
            (-5, -5),
            (-5, 0),
            (-10, 0),
            (-10, -10),
        ]],
        &[&[
            (-5, 0),
            (-5, 5),
            (5, 5),
            (5, 0),
            (10, 0),
            (10, 10),
            (-10, 10),
            (-10, 0),
        ]],
    ];
    cuts::<I>(rt, alloc, &[WIDE, NARROW], MIDDLE, wanted)
}

// Tests whether a line through two corners cuts a square into two triangles.
fn cuts_through_corners<I: OverlayInt + PartialEq + From<i16>>(
    rt: &impl Abort,
    alloc: Global,
) -> Result<bool, Fail> {
    let wanted: &[&[Points<'_>]] = &[
        &[&[(2, -2), (-2, 2), (-2, -2)]],
        &[&[(-2, 2), (2, -2), (2, 2)]],
    ];
    cuts::<I>(rt, alloc, &[CORNERS], &[(-5, 5), (5, -5)], wanted)
}

// Tests whether a line at the top of a triangle cuts nothing.
fn passes_the_top<I: OverlayInt + PartialEq + From<i16>>(
    rt: &impl Abort,
    alloc: Global,
) -> Result<bool, Fail> {
    let triangle: Points<'_> = &[(-2, 0), (2, 0), (0, 2)];
    let wanted: &[&[Points<'_>]] = &[&[&[(2, 0), (0, 2), (-2, 0)]]];
    cuts::<I>(rt, alloc, &[triangle], &[(-5, 2), (5, 2)], wanted)
}

// Tests whether a single line between two holes cuts nothing.
fn joins_holes<I: OverlayInt + PartialEq + From<i16>>(
    rt: &impl Abort,
    alloc: Global,
) -> Result<bool, Fail> {
    let shapes = by_line::<I>(
        rt,
        alloc,
        TWO_HOLES,
        &[(15, 10), (20, 10)],
        FillRule::NonZero,
    )?;
    Ok(shapes.len() == 1 && shapes[0].len() == 3)
}

// Tests whether two lines cut out the part between them.
fn parts_holes<I: OverlayInt + PartialEq + From<i16>>(
    rt: &impl Abort,
    alloc: Global,
) -> Result<bool, Fail> {
    let lines = [line_of((15, 5), (20, 5)), line_of((15, 15), (20, 15))];
    let shapes = by_lines::<I>(rt, alloc, TWO_HOLES, lines)?;
    Ok(shapes.len() == 2 && shapes[0].len() == 2 && shapes[1].len() == 1)
}

// Tests whether lines along each other in both directions cut as a single line does.
fn cuts_by_lines<I: OverlayInt + PartialEq + From<i16>>(
    rt: &impl Abort,
    alloc: Global,
) -> Result<bool, Fail> {
    let lines = [line_of((-20, 0), (20, 0)), line_of((20, 0), (-20, 0))];
    let shapes = by_lines::<I>(rt, alloc, &[WIDE], lines)?;
    Ok(are_shapes(alloc, &shapes, HALVES)?)
}

// Tests whether a path of two steps cuts a square, and the point between them stays.
fn cuts_by_path<I: OverlayInt + PartialEq + From<i16>>(
    rt: &impl Abort,
    alloc: Global,
) -> Result<bool, Fail> {
    let shapes = by_path::<I>(rt, alloc, WIDE, &[(-20, 0), (0, 0), (20, 0)])?;
    let wanted: &[&[Points<'_>]] = &[
        &[&[(10, -10), (10, 0), (0, 0), (-10, 0), (-10, -10)]],
        &[&[(0, 0), (10, 0), (10, 10), (-10, 10), (-10, 0)]],
    ];
    Ok(are_shapes(alloc, &shapes, wanted)?)
}

// Tests whether a path that does not come back to where it began cuts nothing out.
fn leaves_open<I: OverlayInt + PartialEq + From<i16>>(
    rt: &impl Abort,
    alloc: Global,
) -> Result<bool, Fail> {
    let shapes = by_path::<I>(rt, alloc, WIDE, NARROW)?;
    let wanted: &[&[Points<'_>]] = &[&[&[(10, -10), (10, 10), (-10, 10), (-10, -10)]]];
    Ok(are_shapes(alloc, &shapes, wanted)?)
}

// Tests whether a list of two paths cuts a square, where one path is at a distance.
fn cuts_by_paths<I: OverlayInt + PartialEq + From<i16>>(
    rt: &impl Abort,
    alloc: Global,
) -> Result<bool, Fail> {
    let shapes = by_paths::<I>(rt, alloc, WIDE, &[MIDDLE, &[(20, 20), (30, 20)]])?;
    Ok(are_shapes(alloc, &shapes, HALVES)?)
}

// Tests whether a resource of these two does.
fn cuts_by_source<I: OverlayInt + PartialEq + From<i16>>(
    rt: &impl Abort,
    alloc: Global,
) -> Result<bool, Fail> {
    let shapes = by_source::<I>(rt, alloc, WIDE, &[MIDDLE, &[(20, 20), (30, 20)]])?;
    Ok(are_shapes(alloc, &shapes, HALVES)?)
}

// Tests whether nothing comes of no contour.
fn has_no_shape<I: OverlayInt + PartialEq + From<i16>>(
    rt: &impl Abort,
    alloc: Global,
) -> Result<bool, Fail> {
    Ok(by_source::<I>(rt, alloc, &[], &[MIDDLE])?.is_empty())
}

// One line through a shape, or past it.
fn lines<I: OverlayInt + PartialEq + From<i16>>(
    rt: &impl Abort,
    alloc: Global,
) -> Result<(), Fail> {
    assert!(rt; cuts::<I>(rt, alloc, &[WIDE], MIDDLE, HALVES)?);
    assert!(rt; ends_inside::<I>(rt, alloc)?);
    assert!(rt; cuts_a_ring::<I>(rt, alloc)?);
    assert!(rt; cuts_through_corners::<I>(rt, alloc)?);
    assert!(rt; cuts::<I>(rt, alloc, &[CORNERS], &[(-5, 5), (5, 5)], UNCUT)?);
    assert!(rt; cuts::<I>(rt, alloc, &[CORNERS], &[(-2, 5), (-2, -5)], UNCUT)?);
    assert!(rt; passes_the_top::<I>(rt, alloc)?);
    assert!(rt; joins_holes::<I>(rt, alloc)?);
    Ok(())
}

// Each other call.
fn strings<I: OverlayInt + PartialEq + From<i16>>(
    rt: &impl Abort,
    alloc: Global,
) -> Result<(), Fail> {
    assert!(rt; parts_holes::<I>(rt, alloc)?);
    assert!(rt; cuts_by_lines::<I>(rt, alloc)?);
    assert!(rt; cuts_by_path::<I>(rt, alloc)?);
    assert!(rt; leaves_open::<I>(rt, alloc)?);
    assert!(rt; cuts_by_paths::<I>(rt, alloc)?);
    assert!(rt; cuts_by_source::<I>(rt, alloc)?);
    assert!(rt; has_no_shape::<I>(rt, alloc)?);
    Ok(())
}

// A counterclockwise square is filled by each rule but one.
fn rules<I: OverlayInt + PartialEq + From<i16>>(
    rt: &impl Abort,
    alloc: Global,
) -> Result<(), Fail> {
    assert!(rt; fills::<I>(rt, alloc, FillRule::EvenOdd, HALVES)?);
    assert!(rt; fills::<I>(rt, alloc, FillRule::Positive, HALVES)?);
    assert!(rt; fills::<I>(rt, alloc, FillRule::Negative, &[])?);
    Ok(())
}

#[test]
fn sliced_by_a_line(rt: HostRuntime) -> Result<(), Fail> {
    lines::<i16>(&rt, rt.alloc())?;
    lines::<i32>(&rt, rt.alloc())?;
    lines::<i64>(&rt, rt.alloc())
}

#[test]
fn sliced_by_strings(rt: HostRuntime) -> Result<(), Fail> {
    strings::<i16>(&rt, rt.alloc())?;
    strings::<i32>(&rt, rt.alloc())?;
    strings::<i64>(&rt, rt.alloc())
}

#[test]
fn sliced_by_each_fill_rule(rt: HostRuntime) -> Result<(), Fail> {
    rules::<i16>(&rt, rt.alloc())?;
    rules::<i32>(&rt, rt.alloc())?;
    rules::<i64>(&rt, rt.alloc())
}
