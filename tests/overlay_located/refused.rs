//! Memory that is refused while a shape is made.

use overlay_geom::error::OverlayError;
use overlay_geom::fill_rule::FillRule;
use overlay_geom::path::IntShape;
use overlay_geom::point::{IntPoint, in_range};
use overlay_located::exact_shape::ExactShape;
use overlay_relate::location::PointLocation::Inside;
use refusing_alloc::refusing::Refusing;
use std::test::Fail;

// More requests than a call makes.
const PLENTY: u64 = 10_000;

#[test]
fn memory_refuses(rt: HostRuntime) -> Result<(), Fail> {
    let alloc = rt.alloc();
    let corners = [[0, 0], [4, 0], [4, 4], [0, 4]].map(|at: [i32; 2]| IntPoint::new(at[0], at[1]));
    assert!(rt; in_range(&corners));
    let mut shape: IntShape<i32, _> = Vec::new(alloc);
    shape.push(Vec::from_array(alloc, corners)?)?;
    let memory = Refusing::new(alloc, PLENTY);
    for granted in 0..PLENTY {
        memory.grant(granted);
        match ExactShape::new(&memory, &shape, FillRule::NonZero) {
            Ok(exact) => {
                assert!(rt; granted > 0 && exact.locate(IntPoint::new(2, 2)) == Inside);
                return Ok(());
            }
            Err(e) => assert!(rt; e == OverlayError::Memory),
        }
    }
    assert!(rt; false);
    Ok(())
}
