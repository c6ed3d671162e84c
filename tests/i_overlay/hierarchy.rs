//! Shapes in holes of other shapes, at each coordinate type and in both output directions.

use crate::alone::rows_are_alone;
use crate::contours::add_contours;
use crate::rows::{Row, builder_of};
use crate::trees::gives_hierarchy;
use i_overlay::extract::BooleanExtractionBuffer;
use i_overlay::fill_rule::FillRule;
use i_overlay::hierarchy::{ChildLink, FlatShapeHierarchy};
use i_overlay::overlay::{ContourDirection, IntOverlayOptions, Overlay, ShapeType};
use i_overlay::overlay_rule::OverlayRule;
use i_overlay::solver::Solver;
use overlay_geom::error::OverlayError;
use overlay_geom::integer::OverlayInt;
use small_points::contours::{Points, shapes_of};
use std::alloc::Global;
use std::process::Abort;
use std::test::Fail;

/// The query of an overlay, and the expected links beside the shapes.
#[derive(Drop)]
pub(crate) struct Linked<'a> {
    /// The overlay, and its shapes.
    pub(crate) row: Row<'a>,
    /// The links.
    pub(crate) links: &'a [(usize, usize, usize)],
}

const NEST_GIVEN: &[Points<'static>] = &[
    &[(0, 0), (100, 0), (100, 100), (0, 100)],
    &[(10, 10), (90, 10), (90, 90), (10, 90)],
    &[(20, 20), (80, 20), (80, 80), (20, 80)],
    &[(30, 30), (70, 30), (70, 70), (30, 70)],
    &[(40, 40), (60, 40), (60, 60), (40, 60)],
];

// Nested squares: three shapes; the second and the third lie in a hole each.
const NEST: Linked<'static> = Linked {
    row: Row {
        subj: NEST_GIVEN,
        clip: &[],
        rule: OverlayRule::Subject,
        fill: FillRule::EvenOdd,
        wanted: &[
            &[
                &[(0, 100), (0, 0), (100, 0), (100, 100)],
                &[(10, 10), (10, 90), (90, 90), (90, 10)],
            ],
            &[
                &[(20, 80), (20, 20), (80, 20), (80, 80)],
                &[(30, 30), (30, 70), (70, 70), (70, 30)],
            ],
            &[&[(40, 60), (40, 40), (60, 40), (60, 60)]],
        ],
    },
    links: &[(0, 1, 1), (1, 3, 2)],
};

// The nested squares, clockwise.
const NEST_CLOCKWISE: Linked<'static> = Linked {
    row: Row {
        subj: NEST_GIVEN,
        clip: &[],
        rule: OverlayRule::Subject,
        fill: FillRule::EvenOdd,
        wanted: &[
            &[
                &[(0, 0), (0, 100), (100, 100), (100, 0)],
                &[(10, 90), (10, 10), (90, 10), (90, 90)],
            ],
            &[
                &[(20, 20), (20, 80), (80, 80), (80, 20)],
                &[(30, 70), (30, 30), (70, 30), (70, 70)],
            ],
            &[&[(40, 40), (40, 60), (60, 60), (60, 40)]],
        ],
    },
    links: &[(0, 1, 1), (1, 3, 2)],
};

const PAIR_GIVEN: &[Points<'static>] = &[
    &[(0, 0), (100, 0), (100, 100), (0, 100)],
    &[(10, 10), (90, 10), (90, 90), (10, 90)],
    &[(20, 20), (30, 20), (30, 30), (20, 30)],
    &[(60, 60), (70, 60), (70, 70), (60, 70)],
];

// Two islands in one hole.
const PAIR: Linked<'static> = Linked {
    row: Row {
        subj: PAIR_GIVEN,
        clip: &[],
        rule: OverlayRule::Subject,
        fill: FillRule::EvenOdd,
        wanted: &[
            &[
                &[(0, 100), (0, 0), (100, 0), (100, 100)],
                &[(10, 10), (10, 90), (90, 90), (90, 10)],
            ],
            &[&[(20, 30), (20, 20), (30, 20), (30, 30)]],
            &[&[(60, 70), (60, 60), (70, 60), (70, 70)]],
        ],
    },
    links: &[(0, 1, 1), (0, 1, 2)],
};

// The pair, clockwise.
const PAIR_CLOCKWISE: Linked<'static> = Linked {
    row: Row {
        subj: PAIR_GIVEN,
        clip: &[],
        rule: OverlayRule::Subject,
        fill: FillRule::EvenOdd,
        wanted: &[
            &[
                &[(0, 0), (0, 100), (100, 100), (100, 0)],
                &[(10, 90), (10, 10), (90, 10), (90, 90)],
            ],
            &[&[(20, 20), (20, 30), (30, 30), (30, 20)]],
            &[&[(60, 60), (60, 70), (70, 70), (70, 60)]],
        ],
    },
    links: &[(0, 1, 1), (0, 1, 2)],
};

const TOUCHING_GIVEN: &[Points<'static>] = &[
    &[(0, 0), (10, 0), (10, 10), (0, 10)],
    &[(2, 2), (2, 8), (8, 8), (8, 2)],
    &[(2, 5), (4, 4), (4, 6)],
];

// With groups an island that touches the hole round it is a shape of its own, and lies in the hole.
const TOUCHING: Linked<'static> = Linked {
    row: Row {
        subj: TOUCHING_GIVEN,
        clip: &[],
        rule: OverlayRule::Subject,
        fill: FillRule::EvenOdd,
        wanted: &[
            &[
                &[(0, 10), (0, 0), (10, 0), (10, 10)],
                &[(2, 2), (2, 8), (8, 8), (8, 2)],
            ],
            &[&[(4, 6), (2, 5), (4, 4)]],
        ],
    },
    links: &[(0, 1, 1)],
};

// The touching shapes, clockwise.
const TOUCHING_CLOCKWISE: Linked<'static> = Linked {
    row: Row {
        subj: TOUCHING_GIVEN,
        clip: &[],
        rule: OverlayRule::Subject,
        fill: FillRule::EvenOdd,
        wanted: &[
            &[
                &[(0, 0), (0, 10), (10, 10), (10, 0)],
                &[(2, 2), (8, 2), (8, 8), (2, 8)],
            ],
            &[&[(2, 5), (4, 6), (4, 4)]],
        ],
    },
    links: &[(0, 1, 1)],
};

// Tests whether the hierarchy has the shapes and the links.
fn shows<I: OverlayInt + PartialEq + From<i16>>(
    alloc: Global,
    hierarchy: &FlatShapeHierarchy<I, Global>,
    linked: &Linked<'_>,
) -> Result<bool, OverlayError> {
    let wanted = shapes_of(alloc, linked.row.wanted)?;
    let mut links = Vec::new(alloc);
    for link in linked.links {
        links.push(ChildLink {
            parent_shape_index: link.0,
            parent_contour_index: link.1,
            child_shape_index: link.2,
        })?;
    }
    Ok(hierarchy.shapes.to_shapes()? == wanted && hierarchy.links == links)
}

// The winding of a shape in this direction.
fn turn_of(direction: ContourDirection) -> i64 {
    match direction {
        ContourDirection::CounterClockwise => 1,
        ContourDirection::Clockwise => -1,
    }
}

/// Checks that the builder and a view of it have equal answers, by trees, by lists and by snapping. A copy is equal,
/// and each shape winds by itself.
pub(crate) fn check<I: OverlayInt + PartialEq + From<i16>>(
    rt: &impl Abort,
    alloc: Global,
    linked: &Linked<'_>,
    options: IntOverlayOptions<I::WideUInt>,
) -> Result<(), Fail> {
    let mut overlay = builder_of::<I>(rt, alloc, &linked.row, options)?;
    let hierarchy = overlay.overlay_hierarchy(linked.row.rule, linked.row.fill)?;
    assert!(rt; shows(alloc, &hierarchy, linked)?);
    assert!(rt; rows_are_alone::<I>(alloc, linked.row.wanted, turn_of(options.output_direction))?);
    let mut snapped = builder_of::<I>(rt, alloc, &linked.row, options)?;
    snapped.solver = Solver::SNAPPED;
    assert!(rt; snapped.overlay_hierarchy(linked.row.rule, linked.row.fill)? == hierarchy);
    assert!(rt; hierarchy.clone()? == hierarchy);
    assert!(rt; gives_hierarchy(rt, alloc, &linked.row, options, &hierarchy)?);
    let Some(view) = overlay.build_graph_view(linked.row.fill)? else {
        assert!(rt; false);
        return Ok(());
    };
    let mut buffer = BooleanExtractionBuffer::default(alloc);
    let viewed = view.extract_shape_hierarchy(linked.row.rule, &mut buffer)?;
    assert!(rt; viewed == hierarchy);
    Ok(())
}

// Checks the ranges of the contours of each shape, from a first number up to a second.
fn check_ranges<I: OverlayInt + PartialEq + From<i16>>(
    rt: &impl Abort,
    alloc: Global,
    linked: &Linked<'_>,
    wanted: &[(usize, usize)],
) -> Result<(), Fail> {
    let mut overlay = builder_of::<I>(rt, alloc, &linked.row, IntOverlayOptions::default())?;
    let hierarchy = overlay.overlay_hierarchy(linked.row.rule, linked.row.fill)?;
    let ranges = &hierarchy.shapes.shape_ranges;
    assert_eq!(rt; ranges.len(), wanted.len());
    for (range, (start, end)) in ranges.iter().zip(wanted.iter()) {
        assert!(rt; range.start == *start && range.end == *end);
    }
    Ok(())
}

fn check_each<I: OverlayInt + PartialEq + From<i16>>(
    rt: &impl Abort,
    alloc: Global,
) -> Result<(), Fail> {
    let clockwise = IntOverlayOptions {
        output_direction: ContourDirection::Clockwise,
        ..IntOverlayOptions::default()
    };
    check::<I>(rt, alloc, &NEST, IntOverlayOptions::default())?;
    check::<I>(rt, alloc, &NEST, IntOverlayOptions::ogc())?;
    check::<I>(rt, alloc, &NEST_CLOCKWISE, clockwise)?;
    check::<I>(rt, alloc, &PAIR, IntOverlayOptions::default())?;
    check_ranges::<I>(rt, alloc, &NEST, &[(0, 2), (2, 4), (4, 5)])?;
    check_ranges::<I>(rt, alloc, &PAIR, &[(0, 2), (2, 3), (3, 4)])?;
    check::<I>(rt, alloc, &PAIR_CLOCKWISE, clockwise)?;
    check::<I>(rt, alloc, &TOUCHING, IntOverlayOptions::ogc())?;
    let both = IntOverlayOptions {
        output_direction: ContourDirection::Clockwise,
        ..IntOverlayOptions::ogc()
    };
    check::<I>(rt, alloc, &TOUCHING_CLOCKWISE, both)
}

#[test]
fn links_at_i16(rt: HostRuntime) -> Result<(), Fail> {
    check_each::<i16>(&rt, rt.alloc())
}

#[test]
fn links_at_i32(rt: HostRuntime) -> Result<(), Fail> {
    check_each::<i32>(&rt, rt.alloc())
}

#[test]
fn links_at_i64(rt: HostRuntime) -> Result<(), Fail> {
    check_each::<i64>(&rt, rt.alloc())
}

#[test]
fn no_shapes_at_first(rt: HostRuntime) -> Result<(), Fail> {
    let hierarchy: FlatShapeHierarchy<i32, Global> = FlatShapeHierarchy::default(rt.alloc())?;
    assert!(rt; hierarchy.links.is_empty());
    assert!(rt; hierarchy.shapes.to_shapes()?.is_empty());
    Ok(())
}

#[test]
fn links_go_by_their_fields_in_order(rt: HostRuntime) {
    let link = |parent_shape_index, parent_contour_index, child_shape_index| ChildLink {
        parent_shape_index,
        parent_contour_index,
        child_shape_index,
    };
    assert!(rt; link(0, 9, 9) < link(1, 0, 0));
    assert!(rt; link(1, 2, 9) < link(1, 3, 0));
    assert!(rt; link(1, 2, 3) < link(1, 2, 4));
    assert!(rt; link(1, 2, 3) == link(1, 2, 3));
}

// The unit square whose lower left corner this is.
fn cell(column: u8, row: u8) -> [(i16, i16); 4] {
    let (x, y) = (i16::from(column), i16::from(row));
    [(x, y), (x + 1, y), (x + 1, y + 1), (x, y + 1)]
}

// A board of eight by eight squares with every other square filled: these touch in corners.
fn check_board<I: OverlayInt + PartialEq + From<i16>>(
    rt: &impl Abort,
    alloc: Global,
    options: IntOverlayOptions<I::WideUInt>,
) -> Result<(), Fail> {
    let mut overlay: Overlay<I, Global> = builder_of(rt, alloc, &EMPTY, options)?;
    for number in 0..64u8 {
        let (column, row) = (number % 8, number / 8);
        if column % 2 == row % 2 {
            let square: Points<'_> = &cell(column, row);
            add_contours(rt, alloc, &mut overlay, &[square], ShapeType::Subject)?;
        }
    }
    let hierarchy = overlay.overlay_hierarchy(OverlayRule::Subject, FillRule::EvenOdd)?;
    assert!(rt; hierarchy.shapes.shape_ranges.len() == 32);
    assert!(rt; hierarchy.shapes.contour_ranges.len() == 32);
    assert!(rt; hierarchy.shapes.points.len() == 128);
    assert!(rt; hierarchy.links.is_empty());
    Ok(())
}

const EMPTY: Row<'static> = Row {
    subj: &[],
    clip: &[],
    rule: OverlayRule::Subject,
    fill: FillRule::EvenOdd,
    wanted: &[],
};

#[test]
fn squares_that_touch_in_corners(rt: HostRuntime) -> Result<(), Fail> {
    check_board::<i16>(&rt, rt.alloc(), IntOverlayOptions::default())?;
    check_board::<i16>(&rt, rt.alloc(), IntOverlayOptions::ogc())?;
    check_board::<i32>(&rt, rt.alloc(), IntOverlayOptions::default())?;
    check_board::<i32>(&rt, rt.alloc(), IntOverlayOptions::ogc())?;
    check_board::<i64>(&rt, rt.alloc(), IntOverlayOptions::default())?;
    check_board::<i64>(&rt, rt.alloc(), IntOverlayOptions::ogc())
}
