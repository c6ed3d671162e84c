//! The room that a builder is made with.

use crate::builders::{add, is_refused};
use crate::squares::square;
use i_overlay::overlay::{IntOverlayOptions, Overlay, ShapeType};
use overlay_geom::error::OverlayError;
use refusing_alloc::refusing::Refusing;
use std::alloc::Global;
use std::process::Abort;
use std::test::Fail;

// A builder whose memory may be refused.
type Refusable<'a> = Overlay<i32, &'a Refusing<Global>>;

// Adds the square from 0 to 2 as a subject.
fn add_square(rt: &impl Abort, overlay: &mut Refusable<'_>) -> Result<(), OverlayError> {
    add(rt, overlay, &square(0, 2), ShapeType::Subject)
}

#[test]
fn a_builder_has_the_room_that_it_was_made_with(rt: HostRuntime) -> Result<(), Fail> {
    let memory = Refusing::new(rt.alloc(), 100);
    let mut overlay = Refusable::new(&memory, 4)?;
    overlay.options = IntOverlayOptions::keep_all_points();
    memory.grant(0);
    for _ in 0..2 {
        add_square(&rt, &mut overlay)?;
        assert!(rt; is_refused(add_square(&rt, &mut overlay), OverlayError::Memory));
        overlay.clear();
    }
    Ok(())
}
