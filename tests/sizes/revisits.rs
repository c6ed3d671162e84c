//! Slices whose walks come back to many points: a plate with triangles, or lines, that begin at its left side.

use crate::figures::{COUNT, coordinate, point};
use crate::lines::{RULE, area_two};
use i_overlay::i_float::int::point::IntPoint;
use i_overlay::i_shape::int::shape::{IntShape, IntShapes};
use i_overlay::string::overlay::StringOverlay;
use i_overlay::string::rule::StringRule;
use std::alloc::Global;
use std::process::Abort;
use std::test::Fail;

// The height of the plate: 4 for each triangle or line, and 4 more.
const TOP: i32 = 4 * COUNT as i32 + 4;

// The plate, 10 wide.
fn plate() -> [IntPoint<i32>; 4] {
    [point(0, 0), point(10, 0), point(10, TOP), point(0, TOP)]
}

// The point at which the triangle or line of a number begins, on the left side of the plate.
fn start_of(number: usize) -> IntPoint<i32> {
    point(0, 4 * coordinate(number) + 2)
}

// The triangle of a number: from its start to the right, and up by one.
fn triangle_at(number: usize) -> [IntPoint<i32>; 3] {
    let start = start_of(number);
    [start, point(4, start.y), point(4, start.y + 1)]
}

// The slices of the plate by closed strings.
fn slices(alloc: Global, strings: &IntShape<i32, Global>) -> Result<IntShapes<i32, Global>, Fail> {
    let mut overlay = StringOverlay::new(alloc, 0)?;
    overlay.add_shape_contour(&plate())?;
    overlay.add_string_contours(strings)?;
    match overlay.build_graph_view(RULE)? {
        Some(view) => Ok(view.extract_shapes(StringRule::Slice)?),
        None => Ok(Vec::new(alloc)),
    }
}

#[test]
fn triangles_begin_at_the_side(rt: HostRuntime) -> Result<(), Fail> {
    let alloc = rt.alloc();
    let mut triangles = Vec::new(alloc);
    for number in 0..COUNT {
        triangles.push(Vec::from_array(alloc, triangle_at(number))?)?;
    }
    let found = slices(alloc, &triangles)?;
    assert!(&rt; found.len() == COUNT + 1, "{} slices", found.len());
    let mut whole = 0;
    for shape in &found {
        // (a triangle has twice the area 4, and what is left of the plate has all of them as holes)
        let is_triangle = shape.len() == 1 && shape[0].len() == 3 && area_two(&shape[0]) == 4;
        if !is_triangle {
            assert!(&rt; shape.len() == COUNT + 1 && area_two(&shape[0]) == 20 * TOP);
            whole += 1;
        }
    }
    assert!(&rt; whole == 1, "{whole} plates");
    Ok(())
}

#[test]
fn lines_that_end_inside_cut_nothing_off(rt: HostRuntime) -> Result<(), Fail> {
    let alloc = rt.alloc();
    let mut lines = Vec::new(alloc);
    for number in 0..COUNT {
        let start = start_of(number);
        lines.push(Vec::from_array(alloc, [start, point(4, start.y)])?)?;
    }
    let found = slices(alloc, &lines)?;
    assert!(&rt;
        found.len() == 1 && found[0].len() == 1,
        "{} slices",
        found.len()
    );
    assert!(&rt; area_two(&found[0][0]) == 20 * TOP);
    Ok(())
}
