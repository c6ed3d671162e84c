//! A plate with lines across it, and what is left of it and of them.

use crate::figures::{COUNT, coordinate, point};
use i_overlay::fill_rule::FillRule;
use i_overlay::i_float::int::point::IntPoint;
use i_overlay::i_shape::flat::buffer::FlatContoursBuffer;
use i_overlay::i_shape::int::shape::{IntContour, IntShape};
use i_overlay::string::clip::ClipRule;
use i_overlay::string::line::IntLine;
use std::alloc::Global;
use std::test::Fail;

/// The rule by which edges are filled.
pub(crate) const RULE: FillRule = FillRule::NonZero;

/// The clip inside, without the boundary.
pub(crate) const INSIDE: ClipRule = ClipRule {
    invert: false,
    boundary_included: false,
};

/// The plate, 10 wide, and 2 high for each line.
pub(crate) fn plate() -> [IntPoint<i32>; 4] {
    let top = 2 * coordinate(COUNT);
    [point(0, 0), point(10, 0), point(10, top), point(0, top)]
}

/// The line of a number, across the plate from left to right.
pub(crate) fn line_at(number: usize) -> IntLine<i32> {
    let y = 2 * coordinate(number) + 1;
    [point(-1, y), point(11, y)]
}

/// The lines.
pub(crate) fn lines(alloc: Global) -> Result<Vec<IntLine<i32>, Global>, Fail> {
    let mut all = Vec::new(alloc);
    for number in 0..COUNT {
        all.push(line_at(number))?;
    }
    Ok(all)
}

/// The lines as paths.
pub(crate) fn paths(alloc: Global) -> Result<IntShape<i32, Global>, Fail> {
    let mut all = Vec::new(alloc);
    for number in 0..COUNT {
        all.push(Vec::from_array(alloc, line_at(number))?)?;
    }
    Ok(all)
}

/// One path along all lines, by turns to the right and to the left.
pub(crate) fn zigzag(alloc: Global) -> Result<IntContour<i32, Global>, Fail> {
    let mut path = Vec::new(alloc);
    for number in 0..COUNT {
        let [left, right] = line_at(number);
        if number % 2 == 0 {
            path.extend_from_slice(&[left, right])?;
        } else {
            path.extend_from_slice(&[right, left])?;
        }
    }
    Ok(path)
}

/// Tests whether the paths are the parts of all lines that lie in the plate, in any order, and along the lines or back.
pub(crate) fn are_parts(paths: &[IntContour<i32, Global>]) -> bool {
    let mut sum = 0;
    for path in paths {
        let [a, b] = path.as_slice() else {
            return false;
        };
        let leads_across = a.x == 0 && b.x == 10 || a.x == 10 && b.x == 0;
        if !leads_across || a.y != b.y || a.y % 2 != 1 {
            return false;
        }
        sum += a.y;
    }
    // (the first odd numbers make a square)
    paths.len() == COUNT && sum == coordinate(COUNT * COUNT)
}

/// Tests whether the buffer has such paths.
pub(crate) fn are_flat_parts(buffer: &FlatContoursBuffer<i32, Global>) -> bool {
    let mut sum = 0;
    for range in &buffer.ranges {
        let [a, b] = &buffer.points[range.start..range.end] else {
            return false;
        };
        if a.x + b.x != 10 || a.x != 0 && b.x != 0 || a.y != b.y || a.y % 2 != 1 {
            return false;
        }
        sum += a.y;
    }
    buffer.ranges.len() == COUNT && sum == coordinate(COUNT * COUNT)
}

/// Tests whether the shapes are the strips between the lines: twice their areas make twice the plate's.
pub(crate) fn are_strips(shapes: &[IntShape<i32, Global>]) -> bool {
    let mut area = 0;
    for shape in shapes {
        if shape.len() != 1 || shape[0].len() != 4 {
            return false;
        }
        area += area_two(&shape[0]);
    }
    shapes.len() == COUNT + 1 && area == 2 * 10 * 2 * coordinate(COUNT)
}

/// Twice the area in the contour, if it runs counterclockwise.
pub(crate) fn area_two(contour: &[IntPoint<i32>]) -> i32 {
    let mut area = 0;
    for place in 0..contour.len() {
        let (a, b) = (contour[place], contour[(place + 1) % contour.len()]);
        area += a.x * b.y - a.y * b.x;
    }
    area
}
