//! Many contours.

use overlay_geom::fill_rule::FillRule;
use overlay_geom::path::IntShape;
use overlay_geom::point::{IntPoint, in_range};
use overlay_located::exact_shape::ExactShape;
use overlay_relate::location::PointLocation::{Boundary, Inside, Outside};
use std::test::Fail;

// Squares in a row, 1500 of them.
#[test]
fn squares_in_a_row(rt: HostRuntime) -> Result<(), Fail> {
    let alloc = rt.alloc();
    let mut shape: IntShape<i32, _> = Vec::new(alloc);
    for n in 0..1500 {
        let x = 4 * n;
        let square = [[x, 0], [x + 2, 0], [x + 2, 2], [x, 2]];
        shape.push(Vec::from_array(alloc, square.map(|at| IntPoint::new(at[0], at[1])))?)?;
    }
    for contour in &shape {
        assert!(&rt; in_range(contour));
    }
    let exact = ExactShape::new(alloc, &shape, FillRule::EvenOdd)?;
    for n in 0..1500 {
        let x = 4 * n;
        assert!(&rt; exact.locate(IntPoint::new(x + 1, 1)) == Inside);
        assert!(&rt; exact.locate(IntPoint::new(x + 3, 1)) == Outside);
        assert!(&rt; exact.locate(IntPoint::new(x, 1)) == Boundary);
        assert!(&rt; exact.locate(IntPoint::new(x + 2, 2)) == Boundary);
        assert!(&rt; exact.locate(IntPoint::new(x + 1, 3)) == Outside);
    }
    Ok(())
}
