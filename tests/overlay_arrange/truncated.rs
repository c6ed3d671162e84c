//! A content truncated to its first edges.

use crate::rounds::with_subject;
use overlay_geom::point::IntPoint;
use std::process::Abort;
use std::test::Fail;

#[test]
fn the_first_edges_are_left(rt: HostRuntime) -> Result<(), Fail> {
    let path = [
        IntPoint::new(0i32, 0),
        IntPoint::new(2, 0),
        IntPoint::new(4, 0),
        IntPoint::new(4, 4),
    ];
    let mut content = with_subject(&rt, rt.alloc(), &path)?;
    assert!(rt; content.len() == 4);
    content.truncate(1);
    assert!(rt; content.len() == 1);
    assert!(rt; content.edges()[0].b == path[1]);
    Ok(())
}
