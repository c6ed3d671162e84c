//! The shape of two holes that touch its outline, one of them by way of the other.

use callers::touching_holes::outlines_of_holes;
use overlay_geom::error::OverlayError;

#[test]
fn holes_touching_one_outline(rt: HostRuntime) -> Result<(), OverlayError> {
    let shapes = outlines_of_holes(rt.alloc())?;
    assert_eq!(rt;
        shapes.as_slice(),
        &[None, None, None, Some(1), Some(1)][..]
    );
    Ok(())
}
