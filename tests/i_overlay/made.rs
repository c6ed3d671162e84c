//! Each shape by itself, in the answers to inputs that a generator makes.

use crate::alone::are_alone;
use crate::builders::add;
use i_overlay::fill_rule::FillRule;
use i_overlay::overlay::{ContourDirection, IntOverlayOptions, Overlay, ShapeType};
use i_overlay::overlay_rule::OverlayRule;
use i_overlay::solver::Solver;
use overlay_geom::error::OverlayError;
use overlay_geom::path::IntContour;
use overlay_geom::point::IntPoint;
use std::alloc::Global;
use std::process::Abort;
use std::test::Fail;

// Number of inputs.
const INPUTS: u64 = 200;

// Number of contours of each input.
const CONTOURS: u64 = 6;

// The side of the square in which all points lie.
const SIDE: u64 = 12;

// The rules, which are taken in turn.
const FILLS: [FillRule; 4] = [
    FillRule::EvenOdd,
    FillRule::NonZero,
    FillRule::Positive,
    FillRule::Negative,
];

const RULES: [OverlayRule; 7] = [
    OverlayRule::Subject,
    OverlayRule::Clip,
    OverlayRule::Intersect,
    OverlayRule::Union,
    OverlayRule::Difference,
    OverlayRule::InverseDifference,
    OverlayRule::Xor,
];

// The n-th number that a generator draws: SplitMix64, begun with zero.
fn drawn(n: u64) -> u64 {
    let z = n.wrapping_mul(0x9E37_79B9_7F4A_7C15);
    let z = (z ^ (z >> 30)).wrapping_mul(0xBF58_476D_1CE4_E5B9);
    let z = (z ^ (z >> 27)).wrapping_mul(0x94D0_49BB_1331_11EB);
    z ^ (z >> 31)
}

// A coordinate, drawn for the n-th time.
fn coordinate(n: u64) -> i16 {
    (drawn(n) % SIDE) as i16
}

fn point(x: i16, y: i16) -> IntPoint<i16> {
    IntPoint { x, y }
}

// The n-th contour of points drawn at random: three to eight points, some of them perhaps equal or collinear.
fn polygon_at(alloc: Global, n: u64) -> Result<IntContour<i16, Global>, OverlayError> {
    let mut contour = Vec::new(alloc);
    for i in 0..3 + drawn(n) % 6 {
        let at = 1000 * (n + 1) + 2 * i;
        contour.push(point(coordinate(at), coordinate(at + 1)))?;
    }
    Ok(contour)
}

// A rectangle by two opposite corners, in either direction.
fn rectangle(
    alloc: Global,
    (a, b): (i16, i16),
    (c, d): (i16, i16),
) -> Result<IntContour<i16, Global>, OverlayError> {
    let mut contour = Vec::new(alloc);
    for corner in [point(a, b), point(c, b), point(c, d), point(a, d)] {
        contour.push(corner)?;
    }
    Ok(contour)
}

// The n-th contour of all: in turn a square round everything, a rectangle, and a polygon and a rectangle twice.
fn contour_at(alloc: Global, n: u64) -> Result<IntContour<i16, Global>, OverlayError> {
    let at = 1000 * (n + 1);
    let low = (coordinate(at), coordinate(at + 1));
    let high = (coordinate(at + 2), coordinate(at + 3));
    match n % CONTOURS {
        0 => rectangle(alloc, (0, 0), (SIDE as i16, SIDE as i16)),
        1 | 3 | 5 => rectangle(alloc, low, high),
        _ => polygon_at(alloc, n),
    }
}

// A builder with the n-th input: four contours of a subject, and the others of a clip.
fn builder_at(
    rt: &impl Abort,
    alloc: Global,
    n: u64,
    options: IntOverlayOptions<u32>,
) -> Result<Overlay<i16, Global>, OverlayError> {
    let mut overlay = Overlay::new_custom(alloc, 0, options, Solver::ABSOLUTE)?;
    for i in 0..CONTOURS {
        let contour = contour_at(alloc, CONTOURS * n + i)?;
        let shape_type = match i {
            0..4 => ShapeType::Subject,
            _ => ShapeType::Clip,
        };
        add(rt, &mut overlay, &contour, shape_type)?;
    }
    Ok(overlay)
}

// The output direction whose turn it is, and the winding round a shape.
fn direction_at(n: u64) -> (ContourDirection, i64) {
    if n / 28 % 2 == 0 {
        (ContourDirection::CounterClockwise, 1)
    } else {
        (ContourDirection::Clockwise, -1)
    }
}

// Numbers of shapes and of holes in the answer to the n-th input, by the rules of its turn; none if its shapes do not
// each wind by themselves.
fn counts_at(
    rt: &impl Abort,
    alloc: Global,
    n: u64,
    ogc: bool,
) -> Result<Option<(usize, usize)>, OverlayError> {
    let (output_direction, once) = direction_at(n);
    let options = IntOverlayOptions {
        output_direction,
        ogc,
        ..IntOverlayOptions::default()
    };
    let mut overlay = builder_at(rt, alloc, n, options)?;
    let shapes = overlay.overlay(RULES[(n % 7) as usize], FILLS[(n % 4) as usize])?;
    let mut contours = 0;
    for shape in &shapes {
        contours += shape.len();
    }
    let counts = (shapes.len(), contours.wrapping_sub(shapes.len()));
    Ok(are_alone(&shapes, once).then_some(counts))
}

// Checks all inputs, with groups or without. The test needs many shapes and holes to be of use, and counts them.
fn check(rt: &impl Abort, alloc: Global, ogc: bool) -> Result<(), Fail> {
    let (mut shapes, mut holes) = (0, 0);
    for n in 0..INPUTS {
        let counts = counts_at(rt, alloc, n, ogc)?;
        assert!(rt; counts.is_some());
        let (of_shapes, of_holes) = counts.unwrap_or((0, 0));
        shapes += of_shapes;
        holes += of_holes;
    }
    assert!(rt; shapes > 300);
    assert!(rt; holes > 100);
    Ok(())
}

#[test]
fn shapes_of_made_inputs_wind_by_themselves(rt: HostRuntime) -> Result<(), Fail> {
    check(&rt, rt.alloc(), false)
}

#[test]
fn shapes_of_made_inputs_with_ogc_wind_by_themselves(rt: HostRuntime) -> Result<(), Fail> {
    check(&rt, rt.alloc(), true)
}
