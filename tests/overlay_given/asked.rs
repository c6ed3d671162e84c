//! Merged edges made of rows, and how the shapes of their content meet.

use overlay_exact::exact_int::ExactInt;
use overlay_geom::fill_rule::FillRule;
use overlay_geom::point::IntPoint;
use overlay_given::relations::{Contacts, InteriorRelations, find_contacts, interior_relations};
use overlay_order::count::ShapeCountBoolean;
use overlay_order::edge::CountedEdge;
use std::alloc::{Allocator, Global};
use std::process::Abort;
use std::test::Fail;

/// The ends of an edge, and the counts of the subject and of the clip.
pub(crate) type Row = (i16, i16, i16, i16, i32, i32);

// No common points of the interiors.
const NO_INTERIORS: InteriorRelations = InteriorRelations {
    interiors_intersect: false,
    within: false,
    covers: false,
};

// Common points of the interiors.
const INTERIORS: InteriorRelations = InteriorRelations {
    interiors_intersect: true,
    ..NO_INTERIORS
};

// Those of a subject within the clip.
const INTERIORS_WITHIN: InteriorRelations = InteriorRelations {
    within: true,
    ..INTERIORS
};

// Those of a subject that covers the clip.
const INTERIORS_COVERING: InteriorRelations = InteriorRelations {
    covers: true,
    ..INTERIORS
};

/// Nothing in common.
pub(crate) const APART: Contacts = Contacts {
    interiors: NO_INTERIORS,
    beside_piece: false,
    in_points: false,
};

/// Single common points.
pub(crate) const IN_POINTS: Contacts = Contacts {
    in_points: true,
    ..APART
};

/// A common border.
pub(crate) const BESIDE: Contacts = Contacts {
    beside_piece: true,
    ..APART
};

/// Common points of the interiors, and neither within the other.
pub(crate) const CROSSING: Contacts = Contacts {
    interiors: INTERIORS,
    ..BESIDE
};

/// The subject within the clip.
pub(crate) const WITHIN: Contacts = Contacts {
    interiors: INTERIORS_WITHIN,
    ..BESIDE
};

/// The clip within the subject.
pub(crate) const COVERING: Contacts = Contacts {
    interiors: INTERIORS_COVERING,
    ..BESIDE
};

/// The contacts under each rule of shapes that run counter-clockwise: Negative fills nothing of them.
pub(crate) fn counter_clockwise(told: Contacts) -> [Contacts; 4] {
    [told, told, told, APART]
}

// The contacts told of the edges, whose interiors are told alike by themselves.
fn told<I: ExactInt + From<i16>, A: Allocator + Clone>(
    rt: &impl Abort,
    alloc: A,
    rows: &[Row],
    rule: FillRule,
) -> Result<Contacts, Fail> {
    let mut edges = Vec::new(alloc.clone()?);
    for row in rows {
        let (ax, ay, bx, by, subj, clip) = *row;
        edges.push(CountedEdge {
            a: IntPoint::new(I::from(ax), I::from(ay)),
            b: IntPoint::new(I::from(bx), I::from(by)),
            count: ShapeCountBoolean { subj, clip },
        })?;
    }
    let found = find_contacts(alloc.clone()?, &edges, rule)?;
    assert!(rt; interior_relations(alloc, &edges, rule)? == found.interiors);
    Ok(found)
}

/// Stops the test unless these are the contacts under EvenOdd, NonZero, Positive and Negative, at each coordinate
/// type.
pub(crate) fn assert_told(
    rt: &impl Abort,
    alloc: Global,
    rows: &[Row],
    wanted: [Contacts; 4],
) -> Result<(), Fail> {
    let rules = [
        FillRule::EvenOdd,
        FillRule::NonZero,
        FillRule::Positive,
        FillRule::Negative,
    ];
    for k in 0..4 {
        assert!(rt; told::<i16, _>(rt, alloc, rows, rules[k])? == wanted[k]);
        assert!(rt; told::<i32, _>(rt, alloc, rows, rules[k])? == wanted[k]);
        assert!(rt; told::<i64, _>(rt, alloc, rows, rules[k])? == wanted[k]);
    }
    Ok(())
}
