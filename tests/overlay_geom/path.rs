//! A path that borrows its points.

use overlay_geom::path::PathRef;
use overlay_geom::point::IntPoint;

#[test]
fn a_path_borrows_its_points(rt: HostRuntime) {
    let points = [IntPoint::new(0i16, 0), IntPoint::new(4, 0)];
    let path = PathRef::new(&points);
    let copy = path;
    assert_eq!(rt; path.points.len(), 2);
    assert_eq!(rt; copy.points[1], IntPoint::new(4, 0));
}
