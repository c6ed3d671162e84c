//! A view is there. `.ci/refused` adds a contour at that time, which the compiler must refuse.

use i_overlay::fill_rule::FillRule;
use i_overlay::i_float::int::point::IntPoint;
use i_overlay::overlay::{Overlay, ShapeType};
use std::alloc::Global;
use std::test::Fail;

#[test]
fn a_view_is_there(rt: HostRuntime) -> Result<(), Fail> {
    let corners = [
        IntPoint::new(0, 0),
        IntPoint::new(2, 0),
        IntPoint::new(2, 2),
    ];
    let mut overlay: Overlay<i32, Global> = Overlay::new(rt.alloc(), 4)?;
    overlay.add_contour(&corners, ShapeType::Subject)?;
    let view = overlay.build_graph_view(FillRule::NonZero)?;
    assert!(&rt; view.is_some());
    Ok(())
}
