//! Points on the edges, at each width.

use crate::asked::{ask_contour, ask_shape, ask_shapes, points};
use overlay_geom::integer::OverlayInt;
use overlay_relate::location::PointLocation::{Boundary, Inside, Outside};
use std::alloc::Global;
use std::process::Abort;
use std::test::Fail;

fn on_a_contour<I: OverlayInt + From<i16>>(rt: &impl Abort, alloc: Global) -> Result<(), Fail> {
    let notched = [[0, 0], [10, 0], [10, 10], [5, 10], [5, 5], [0, 5]];
    let contour = points::<I>(alloc, &notched)?;
    let asked = [[5, 7], [5, 5], [3, 5], [10, 10], [5, 2], [4, 7], [10, 11]];
    let asked = points::<I>(alloc, &asked)?;
    let answers = ask_contour(rt, alloc, &contour, &asked)?;
    assert!(rt;
        answers.locations.as_slice()
            == [
                Boundary, Boundary, Boundary, Boundary, Inside, Outside, Outside
            ]
            .as_slice()
    );
    Ok(())
}

fn on_a_hole<I: OverlayInt + From<i16>>(rt: &impl Abort, alloc: Global) -> Result<(), Fail> {
    let mut shape = Vec::new(alloc);
    shape.push(points::<I>(alloc, &[[0, 0], [10, 0], [10, 10], [0, 10]])?)?;
    shape.push(points::<I>(alloc, &[[3, 7], [7, 7], [7, 3], [3, 3]])?)?;
    let asked = points::<I>(alloc, &[[3, 5], [5, 5], [1, 1]])?;
    let answers = ask_shape(rt, alloc, &shape, &asked)?;
    assert!(rt; answers.locations.as_slice() == [Boundary, Outside, Inside].as_slice());
    Ok(())
}

fn among_two<I: OverlayInt + From<i16>>(rt: &impl Abort, alloc: Global) -> Result<(), Fail> {
    let mut shapes = Vec::new(alloc);
    for from in [0, 2] {
        let mut shape = Vec::new(alloc);
        shape.push(points::<I>(alloc, &[[from, 0], [from + 4, 0], [from + 4, 4], [from, 4]])?)?;
        shapes.push(shape)?;
    }
    let asked = points::<I>(alloc, &[[4, 2], [0, 2], [7, 2]])?;
    let answers = ask_shapes(rt, alloc, &shapes, &asked)?;
    assert!(rt; answers.locations.as_slice() == [Inside, Boundary, Outside].as_slice());
    Ok(())
}

#[test]
fn points_on_edges(rt: HostRuntime) -> Result<(), Fail> {
    on_a_contour::<i16>(&rt, rt.alloc())?;
    on_a_contour::<i32>(&rt, rt.alloc())?;
    on_a_contour::<i64>(&rt, rt.alloc())?;
    on_a_hole::<i16>(&rt, rt.alloc())?;
    on_a_hole::<i32>(&rt, rt.alloc())?;
    on_a_hole::<i64>(&rt, rt.alloc())?;
    among_two::<i16>(&rt, rt.alloc())?;
    among_two::<i32>(&rt, rt.alloc())?;
    among_two::<i64>(&rt, rt.alloc())
}
