//! No steps, and a list whose room is used again.

use overlay_geom::error::OverlayError;
use overlay_geom::number::IntNumber;
use overlay_walk::buffer::BooleanExtractionBuffer;
use overlay_walk::open_steps::OpenSteps;
use std::alloc::Global;
use std::process::Abort;
use std::test::Fail;

// Checks that a list without steps has no start, and that a buffer lends its memory and takes another list's.
fn check_none<I: IntNumber>(rt: &impl Abort, alloc: Global) -> Result<(), OverlayError> {
    let mut buffer: BooleanExtractionBuffer<I, Global> = BooleanExtractionBuffer::default(alloc);
    let mut open = OpenSteps::new(buffer.take_room(alloc))?;
    assert!(rt; open.start().is_none());
    buffer.put_room(open.into_room());
    assert_eq!(rt; buffer.take_room(alloc).len(), 0);
    Ok(())
}

#[test]
fn none_of_no_steps(rt: HostRuntime) -> Result<(), Fail> {
    check_none::<i16>(&rt, rt.alloc())?;
    check_none::<i32>(&rt, rt.alloc())?;
    check_none::<i64>(&rt, rt.alloc())?;
    Ok(())
}
