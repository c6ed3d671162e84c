//! Points in many shapes: squares with holes side by side, and squares in each other, at each width.

use crate::asked::{ask_shapes, points};
use overlay_geom::integer::OverlayInt;
use overlay_geom::path::{IntShape, IntShapes};
use std::alloc::Global;
use std::process::Abort;
use std::test::Fail;

// A square and a hole in it, each by its lower left and its upper right corner.
fn framed<I: OverlayInt + From<i16>>(
    alloc: Global,
    outer: [[i16; 2]; 2],
    hole: [[i16; 2]; 2],
) -> Result<IntShape<I, Global>, Fail> {
    let mut shape = Vec::new(alloc);
    let [[left, low], [right, high]] = outer;
    shape.push(points::<I>(
        alloc,
        &[[left, high], [left, low], [right, low], [right, high]],
    )?)?;
    let [[left, low], [right, high]] = hole;
    shape.push(points::<I>(
        alloc,
        &[[left, low], [left, high], [right, high], [right, low]],
    )?)?;
    Ok(shape)
}

// Forty squares side by side, each with a hole.
fn side_by_side<I: OverlayInt + From<i16>>(rt: &impl Abort, alloc: Global) -> Result<(), Fail> {
    let mut shapes: IntShapes<I, Global> = Vec::new(alloc);
    let mut asked = Vec::new(alloc);
    let mut wanted = Vec::new(alloc);
    for i in 0..40u8 {
        let x = 10 * i16::from(i);
        shapes.push(framed::<I>(alloc, [[x, 0], [x + 6, 6]], [[x + 2, 2], [x + 4, 4]])?)?;
        asked.extend_from_slice(&[[x + 1, 3], [x + 3, 3], [x + 5, 3], [x + 8, 3]])?;
        wanted.extend_from_slice(&[true, false, true, false])?;
    }
    let asked = points::<I>(alloc, &asked)?;
    let answers = ask_shapes(rt, alloc, &shapes, &asked)?;
    assert!(rt; answers.inside == wanted);
    Ok(())
}

// Seventy squares in each other, two a shape. Only in the middle and outside all is a whole point on no edge.
fn in_one_another<I: OverlayInt + From<i16>>(rt: &impl Abort, alloc: Global) -> Result<(), Fail> {
    let mut shapes: IntShapes<I, Global> = Vec::new(alloc);
    for j in 0..35u8 {
        let low = 2 * i16::from(j);
        let high = 200 - low;
        let hole = [[low + 1, low + 1], [high - 1, high - 1]];
        shapes.push(framed::<I>(alloc, [[low, low], [high, high]], hole)?)?;
    }
    let asked = points::<I>(alloc, &[[100, 100], [-1, 100], [201, 3], [70, 130]])?;
    let answers = ask_shapes(rt, alloc, &shapes, &asked)?;
    assert!(rt; answers.inside.as_slice() == [false, false, false, false].as_slice());
    Ok(())
}

#[test]
fn squares_with_holes(rt: HostRuntime) -> Result<(), Fail> {
    side_by_side::<i16>(&rt, rt.alloc())?;
    side_by_side::<i32>(&rt, rt.alloc())?;
    side_by_side::<i64>(&rt, rt.alloc())
}

#[test]
fn squares_in_one_another(rt: HostRuntime) -> Result<(), Fail> {
    in_one_another::<i16>(&rt, rt.alloc())?;
    in_one_another::<i32>(&rt, rt.alloc())?;
    in_one_another::<i64>(&rt, rt.alloc())
}
