//! Queries of contours and shapes. They stop the test where a condition does not hold, or where locations differ with
//! trees for all contours or with none at first.

use overlay_geom::integer::OverlayInt;
use overlay_geom::path::{IntContour, IntShape, IntShapes, PathRef};
use overlay_geom::point::{IntPoint, in_range};
use overlay_geom::resolved::is_resolved;
use overlay_geom::resource::borrowed::{BorrowedContours, BorrowedShapes};
use overlay_relate::containment::IntPointContainment;
use overlay_relate::in_contour::locate_from;
use overlay_relate::location::PointLocation;
use std::alloc::{Allocator, Global};
use std::process::Abort;
use std::test::Fail;

// The limits at which each contour has a tree, and at which none has.
const LIMITS: [usize; 2] = [0, usize::MAX];

/// The answers: whether each point is inside, and its location.
#[derive(Drop)]
pub(crate) struct Answers {
    pub(crate) inside: Vec<bool, Global>,
    pub(crate) locations: Vec<PointLocation, Global>,
}

/// Stops the test where the points are out of range, or the contour is not resolved.
pub(crate) fn assert_contour<I: OverlayInt>(rt: &impl Abort, contour: &[IntPoint<I>]) {
    assert!(rt; in_range(contour));
    assert!(rt; is_resolved(contour));
}

/// Stops the test unless each contour is in range and resolved.
pub(crate) fn assert_shape<I: OverlayInt, A: Allocator>(
    rt: &impl Abort,
    contours: &[IntContour<I, A>],
) {
    for contour in contours {
        assert_contour(rt, contour);
    }
}

/// Stops the test unless each shape is in range and resolved.
pub(crate) fn assert_shapes<I: OverlayInt, A: Allocator>(
    rt: &impl Abort,
    shapes: &[IntShape<I, A>],
) {
    for shape in shapes {
        assert_shape(rt, shape);
    }
}

// Where a point lies in contours, joined by exclusive or, that lies so in some of them and in the others.
fn in_either(l: PointLocation, m: PointLocation) -> PointLocation {
    match (l, m) {
        (PointLocation::Boundary, _) | (_, PointLocation::Boundary) => PointLocation::Boundary,
        (PointLocation::Inside, PointLocation::Outside)
        | (PointLocation::Outside, PointLocation::Inside) => PointLocation::Inside,
        _ => PointLocation::Outside,
    }
}

// Where a point lies among shapes, joined by or, that lies so among some of them and among the others.
fn in_any(l: PointLocation, m: PointLocation) -> PointLocation {
    match (l, m) {
        (PointLocation::Inside, _) | (_, PointLocation::Inside) => PointLocation::Inside,
        (PointLocation::Boundary, _) | (_, PointLocation::Boundary) => PointLocation::Boundary,
        _ => PointLocation::Outside,
    }
}

// `Outside` for each point.
fn outside<I: OverlayInt>(
    alloc: Global,
    points: &[IntPoint<I>],
) -> Result<Vec<PointLocation, Global>, Fail> {
    let mut locations = Vec::new(alloc);
    locations.resize(points.len(), PointLocation::Outside)?;
    Ok(locations)
}

// Where the points lie in the shape, with trees from a number of edges on.
fn in_shape_from<I: OverlayInt>(
    alloc: Global,
    contours: &[IntContour<I, Global>],
    points: &[IntPoint<I>],
    tree_from: usize,
) -> Result<Vec<PointLocation, Global>, Fail> {
    let mut locations = outside(alloc, points)?;
    for contour in contours {
        let here = locate_from(alloc, contour, points, tree_from)?;
        for i in 0..points.len() {
            locations[i] = in_either(locations[i], here[i]);
        }
    }
    Ok(locations)
}

// Where they lie among the shapes.
fn in_shapes_from<I: OverlayInt>(
    alloc: Global,
    shapes: &[IntShape<I, Global>],
    points: &[IntPoint<I>],
    tree_from: usize,
) -> Result<Vec<PointLocation, Global>, Fail> {
    let mut locations = outside(alloc, points)?;
    for shape in shapes {
        let here = in_shape_from(alloc, shape, points, tree_from)?;
        for i in 0..points.len() {
            locations[i] = in_any(locations[i], here[i]);
        }
    }
    Ok(locations)
}

// Tests whether the points lie so in the contour, by each limit.
fn are_in_contour<I: OverlayInt>(
    alloc: Global,
    contour: &[IntPoint<I>],
    points: &[IntPoint<I>],
    locations: &[PointLocation],
) -> Result<bool, Fail> {
    for tree_from in LIMITS {
        if locate_from(alloc, contour, points, tree_from)?.as_slice() != locations {
            return Ok(false);
        }
    }
    Ok(true)
}

// Tests whether they lie so in the shape.
fn are_in_shape<I: OverlayInt>(
    alloc: Global,
    contours: &[IntContour<I, Global>],
    points: &[IntPoint<I>],
    locations: &[PointLocation],
) -> Result<bool, Fail> {
    for tree_from in LIMITS {
        if in_shape_from(alloc, contours, points, tree_from)?.as_slice() != locations {
            return Ok(false);
        }
    }
    Ok(true)
}

// Tests whether they lie so among the shapes.
fn are_in_shapes<I: OverlayInt>(
    alloc: Global,
    shapes: &[IntShape<I, Global>],
    points: &[IntPoint<I>],
    locations: &[PointLocation],
) -> Result<bool, Fail> {
    for tree_from in LIMITS {
        if in_shapes_from(alloc, shapes, points, tree_from)?.as_slice() != locations {
            return Ok(false);
        }
    }
    Ok(true)
}

// Tests whether the same points, borrowed, have these answers.
fn answers_alike<I: OverlayInt, T: IntPointContainment<I>>(
    alloc: Global,
    borrowed: &T,
    points: &[IntPoint<I>],
    answers: &Answers,
) -> Result<bool, Fail> {
    let inside = borrowed.contains_points(alloc, points)?;
    let locations = borrowed.locate_points(alloc, points)?;
    Ok(
        inside.as_slice() == answers.inside.as_slice()
            && locations.as_slice() == answers.locations.as_slice(),
    )
}

/// Asks a contour about the points.
pub(crate) fn ask_contour<I: OverlayInt>(
    rt: &impl Abort,
    alloc: Global,
    contour: &IntContour<I, Global>,
    points: &[IntPoint<I>],
) -> Result<Answers, Fail> {
    assert_contour(rt, contour);
    ask_resolved(rt, alloc, contour, points)
}

/// Asks a contour that is known to be resolved about the points.
pub(crate) fn ask_resolved<I: OverlayInt>(
    rt: &impl Abort,
    alloc: Global,
    contour: &IntContour<I, Global>,
    points: &[IntPoint<I>],
) -> Result<Answers, Fail> {
    let all = contour.as_slice();
    assert!(rt; in_range(all));
    assert!(rt; in_range(points));
    let inside = contour.contains_points(alloc, points)?;
    let locations = contour.locate_points(alloc, points)?;
    assert!(rt; are_in_contour(alloc, all, points, &locations)?);
    let answers = Answers { inside, locations };
    assert!(rt; answers_alike(alloc, &PathRef::new(all), points, &answers)?);
    Ok(answers)
}

/// Asks a shape about the points.
pub(crate) fn ask_shape<I: OverlayInt>(
    rt: &impl Abort,
    alloc: Global,
    shape: &IntShape<I, Global>,
    points: &[IntPoint<I>],
) -> Result<Answers, Fail> {
    let all = shape.as_slice();
    assert_shape(rt, all);
    assert!(rt; in_range(points));
    let inside = shape.contains_points(alloc, points)?;
    let locations = shape.locate_points(alloc, points)?;
    assert!(rt; are_in_shape(alloc, all, points, &locations)?);
    let answers = Answers { inside, locations };
    assert!(rt; answers_alike(alloc, &BorrowedContours { contours: all }, points, &answers)?);
    Ok(answers)
}

/// Asks several shapes about the points.
pub(crate) fn ask_shapes<I: OverlayInt>(
    rt: &impl Abort,
    alloc: Global,
    shapes: &IntShapes<I, Global>,
    points: &[IntPoint<I>],
) -> Result<Answers, Fail> {
    let all = shapes.as_slice();
    assert_shapes(rt, all);
    assert!(rt; in_range(points));
    let inside = shapes.contains_points(alloc, points)?;
    let locations = shapes.locate_points(alloc, points)?;
    assert!(rt; are_in_shapes(alloc, all, points, &locations)?);
    let answers = Answers { inside, locations };
    assert!(rt; answers_alike(alloc, &BorrowedShapes { shapes: all }, points, &answers)?);
    Ok(answers)
}

/// The points with these coordinates.
pub(crate) fn points<I: OverlayInt + From<i16>>(
    alloc: Global,
    coordinates: &[[i16; 2]],
) -> Result<Vec<IntPoint<I>, Global>, Fail> {
    let mut points = Vec::new(alloc);
    for at in coordinates {
        points.push(IntPoint::new(I::from(at[0]), I::from(at[1])))?;
    }
    Ok(points)
}
