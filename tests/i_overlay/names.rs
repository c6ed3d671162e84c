//! The paths that items have in the crate that they come from in Rust.

use i_overlay::extract::BooleanExtractionBuffer;
use i_overlay::i_float::int::point::IntPoint;
use i_overlay::i_shape::int::path::{IntPath, PathRef};
use i_overlay::i_shape::int::shape::{IntContour, IntShape, IntShapes};
use i_overlay::i_shape::source::int::resource::IntShapeResource;
use i_overlay::string::line::IntLine;
use std::alloc::Global;
use std::test::Fail;

#[test]
fn names_of_the_original(rt: HostRuntime) -> Result<(), Fail> {
    let mut contour: IntContour<i32, Global> = Vec::new(rt.alloc());
    contour.push(IntPoint::new(1, 2))?;
    let mut shape: IntShape<i32, Global> = Vec::new(rt.alloc());
    shape.push(contour)?;
    let mut shapes: IntShapes<i32, Global> = Vec::new(rt.alloc());
    shapes.push(shape)?;
    let path: IntPath<i32, Global> = Vec::new(rt.alloc());
    assert_eq!(rt; shapes.path_count(), 1);
    assert_eq!(rt; path.path_count(), 1);
    assert_eq!(rt; PathRef::new(&path).path_count(), 1);
    let line: IntLine<i32> = [IntPoint::new(1, 2), IntPoint::new(3, 4)];
    assert_eq!(rt; line[1].x, 3);
    let mut buffer: BooleanExtractionBuffer<i32, Global> = BooleanExtractionBuffer::default(
        rt.alloc(),
    );
    assert_eq!(rt; buffer.take_room(rt.alloc()).len(), 0);
    Ok(())
}
