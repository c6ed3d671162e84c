//! Awkward contents, at each coordinate type: contours that cancel or vanish, needles, combs, and many contours through
//! one point.

use crate::wide::{Places, Wide, check_lone, wide_builder, wide_contour, wide_shapes};
use i_overlay::fill_rule::FillRule;
use i_overlay::overlay::{IntOverlayOptions, Overlay};
use i_overlay::overlay_rule::OverlayRule;
use overlay_geom::error::OverlayError;
use std::alloc::Global;
use std::process::Abort;
use std::test::Fail;

const FILL_RULES: [FillRule; 4] = [
    FillRule::EvenOdd,
    FillRule::NonZero,
    FillRule::Positive,
    FillRule::Negative,
];

const SQUARE: Places<'static> = &[(0, 0), (2, 0), (2, 2), (0, 2)];

const BACK: Places<'static> = &[(0, 2), (2, 2), (2, 0), (0, 0)];

fn check_twice<I: Wide>(rt: &impl Abort, alloc: Global) -> Result<(), OverlayError> {
    let twice: [&[Places<'_>]; 2] = [&[SQUARE, SQUARE], &[]];
    let subject = OverlayRule::Subject;
    check_lone::<I>(rt, alloc, twice, subject, FillRule::EvenOdd, &[])?;
    let once: Places<'_> = &[(0, 2), (0, 0), (2, 0), (2, 2)];
    check_lone::<I>(rt, alloc, twice, subject, FillRule::NonZero, &[once])?;
    let mut overlay = wide_builder::<I>(rt, alloc, twice[0], &[], IntOverlayOptions::default())?;
    let edges = overlay.build_separate_vectors(FillRule::EvenOdd)?;
    assert!(rt; edges.len() == 4);
    for edge in edges {
        assert!(rt; edge.fill == 0);
    }
    Ok(())
}

#[test]
fn a_square_twice(rt: HostRuntime) -> Result<(), Fail> {
    each_wide!(rt, check_twice)
}

fn check_cancelled<I: Wide>(rt: &impl Abort, alloc: Global) -> Result<(), OverlayError> {
    let options = IntOverlayOptions::default();
    let mut overlay = wide_builder::<I>(rt, alloc, &[SQUARE, BACK], &[], options)?;
    assert!(rt; overlay.build_graph_view(FillRule::NonZero)?.is_none());
    Ok(())
}

#[test]
fn a_square_and_its_reverse(rt: HostRuntime) -> Result<(), Fail> {
    each_wide!(rt, check_cancelled)
}

fn check_short<I: Wide>(rt: &impl Abort, alloc: Global) -> Result<(), OverlayError> {
    let m = I::most();
    let short: [&[Places<'_>]; 2] = [&[&[], &[(m, m)], &[(-m, -m), (m, m)]], &[]];
    for rule in FILL_RULES {
        check_lone::<I>(rt, alloc, short, OverlayRule::Subject, rule, &[])?;
    }
    let point = wide_contour::<I>(rt, alloc, &[(0, 0), (0, 0), (0, 0), (0, 0)])?;
    let mut overlay: Overlay<I, Global> = Overlay::new(alloc, 0)?;
    let simple = overlay.simplify_contour(&point, FillRule::NonZero)?;
    assert!(rt; simple == Some(Vec::new(alloc)));
    Ok(())
}

#[test]
fn paths_of_few_points(rt: HostRuntime) -> Result<(), Fail> {
    each_wide!(rt, check_short)
}

// A triangle as wide as the range and one high, and its mirror image. Their long sides cross halfway, at half the
// height, which is rounded up.
fn check_needles<I: Wide>(rt: &impl Abort, alloc: Global) -> Result<(), OverlayError> {
    let m = I::most();
    let both: [&[Places<'_>]; 2] = [
        &[&[(-m, 0), (m, 0), (m, 1)]],
        &[&[(-m, 0), (m, 0), (-m, 1)]],
    ];
    let right: Places<'_> = &[(m, 1), (0, 1), (m, 0)];
    let left: Places<'_> = &[(-m, 1), (-m, 0), (0, 1)];
    let subject: Places<'_> = &[(0, 1), (-m, 0), (m, 0), (m, 1)];
    let clip: Places<'_> = &[(-m, 1), (-m, 0), (m, 0), (0, 1)];
    let common: Places<'_> = &[(0, 1), (-m, 0), (m, 0)];
    let box_round: Places<'_> = &[(-m, 1), (-m, 0), (m, 0), (m, 1)];
    let one = |rule, contour| check_lone::<I>(rt, alloc, both, rule, FillRule::NonZero, &[contour]);
    one(OverlayRule::Subject, subject)?;
    one(OverlayRule::Clip, clip)?;
    one(OverlayRule::Intersect, common)?;
    one(OverlayRule::Union, box_round)?;
    one(OverlayRule::Difference, right)?;
    one(OverlayRule::InverseDifference, left)?;
    let (rule, fill) = (OverlayRule::Xor, FillRule::NonZero);
    check_lone::<I>(rt, alloc, both, rule, fill, &[left, right])
}

#[test]
fn needles_across_the_range(rt: HostRuntime) -> Result<(), Fail> {
    each_wide!(rt, check_needles)
}

// Two holes begin at one point: the lower edge of the upper begins over the upper edge of the lower. Beside them lies
// an island in a hole of its own.
fn check_anchors<I: Wide>(rt: &impl Abort, alloc: Global) -> Result<(), OverlayError> {
    let m = I::most();
    let contours: &[Places<'_>] = &[
        &[(-m, -m), (m, -m), (m, m), (-m, m)],
        &[(-10, -10), (-4, -10), (-4, -4), (-10, -4)],
        &[(-8, -8), (-6, -8), (-6, -6), (-8, -6)],
        &[(0, 0), (m - 3, 1), (m - 3, 3)],
        &[(0, 0), (m - 3, -3), (m - 3, -1)],
    ];
    let outer: &[Places<'_>] = &[
        &[(-m, m), (-m, -m), (m, -m), (m, m)],
        &[(-10, -10), (-10, -4), (-4, -4), (-4, -10)],
        &[(0, 0), (m - 3, 3), (m - 3, 1)],
        &[(0, 0), (m - 3, -1), (m - 3, -3)],
    ];
    let island: &[Places<'_>] = &[&[(-8, -6), (-8, -8), (-6, -8), (-6, -6)]];
    let wanted = wide_shapes::<I>(rt, alloc, &[outer, island])?;
    let options = IntOverlayOptions::default();
    let mut overlay = wide_builder::<I>(rt, alloc, contours, &[], options)?;
    assert!(rt; overlay.overlay(OverlayRule::Subject, FillRule::EvenOdd)? == wanted);
    let hierarchy = overlay.overlay_hierarchy(OverlayRule::Subject, FillRule::EvenOdd)?;
    assert!(rt; hierarchy.shapes.to_shapes()? == wanted);
    assert!(rt; hierarchy.links.len() == 1 && hierarchy.links[0].parent_contour_index == 1);
    Ok(())
}

#[test]
fn edges_that_start_at_an_anchor(rt: HostRuntime) -> Result<(), Fail> {
    each_wide!(rt, check_anchors)
}

// Three teeth of one contour, which end on one point.
fn check_comb<I: Wide>(rt: &impl Abort, alloc: Global) -> Result<(), OverlayError> {
    let m = I::most();
    let (tip, low) = ((0, m), -m);
    let comb: Places<'_> = &[
        (-m, low),
        (2 - m, low),
        tip,
        (-1, low),
        (1, low),
        tip,
        (m - 2, low),
        (m, low),
        tip,
    ];
    let teeth: &[Places<'_>] = &[
        &[tip, (-m, low), (2 - m, low)],
        &[tip, (-1, low), (1, low)],
        &[(m, low), tip, (m - 2, low)],
    ];
    for fill in [FillRule::EvenOdd, FillRule::NonZero, FillRule::Positive] {
        check_lone::<I>(rt, alloc, [&[comb], &[]], OverlayRule::Subject, fill, teeth)?;
    }
    check_lone::<I>(
        rt,
        alloc,
        [&[], &[comb]],
        OverlayRule::Union,
        FillRule::Negative,
        &[],
    )
}

#[test]
fn a_comb_whose_teeth_end_on_one_point(rt: HostRuntime) -> Result<(), Fail> {
    each_wide!(rt, check_comb)
}

// The n-th of 64 needles from the ends of the range to the point in its middle, and its contour in an overlay. 32 come
// from the left, from below, and 32 from the right, from above.
fn needle_at(m: i64, n: i64) -> ([(i64, i64); 3], [(i64, i64); 3]) {
    if n < 32 {
        let (low, high) = ((-m, 2 * n - 32), (-m, 2 * n - 31));
        ([low, (0, 0), high], [high, low, (0, 0)])
    } else {
        let (low, high) = ((m, 94 - 2 * n), (m, 95 - 2 * n));
        ([(0, 0), low, high], [high, (0, 0), low])
    }
}

fn check_star<I: Wide>(rt: &impl Abort, alloc: Global) -> Result<(), OverlayError> {
    let m = I::most();
    let options = IntOverlayOptions::default();
    let mut overlay = wide_builder::<I>(rt, alloc, &[], &[], options)?;
    let mut wanted = Vec::new(alloc);
    for n in 0..64 {
        let (given, outline) = needle_at(m, n);
        overlay.add_contour(
            &wide_contour::<I>(rt, alloc, &given)?,
            i_overlay::overlay::ShapeType::Subject,
        )?;
        wanted.push(Vec::from_array(alloc, [wide_contour::<I>(rt, alloc, &outline)?])?)?;
    }
    assert!(rt; overlay.overlay(OverlayRule::Subject, FillRule::EvenOdd)? == wanted);
    overlay.options.ogc = true;
    assert!(rt; overlay.overlay(OverlayRule::Union, FillRule::NonZero)? == wanted);
    Ok(())
}

#[test]
fn many_contours_through_one_point(rt: HostRuntime) -> Result<(), Fail> {
    each_wide!(rt, check_star)
}

// The point that lies this many steps along the lines of a grid that is turned by a tenth, and this many across them.
fn turned(step: i64, along: i64, across: i64) -> (i64, i64) {
    (step * (10 * along - across), step * (along + 10 * across))
}

// The cell of the grid between these lines, begun where an overlay begins it.
fn cell(step: i64, along: (i64, i64), across: (i64, i64)) -> [(i64, i64); 4] {
    [
        turned(step, along.1, across.1),
        turned(step, along.0, across.1),
        turned(step, along.0, across.0),
        turned(step, along.1, across.0),
    ]
}

// Three bars along the grid as a subject, and three across it as a clip, which meet in whole points alone: where they
// cross, and what is left of the subject.
fn check_grid<I: Wide>(rt: &impl Abort, alloc: Global) -> Result<(), OverlayError> {
    let step = I::most() / 44;
    let bars = [(-3, -2), (-1, 0), (1, 2)];
    let gaps = [(-4, -3), (-2, -1), (0, 1), (2, 3)];
    let [a, b, c] = [
        cell(step, (-4, 3), bars[0]),
        cell(step, (-4, 3), bars[1]),
        cell(step, (-4, 3), bars[2]),
    ];
    let [d, e, f] = [
        cell(step, bars[0], (-4, 3)),
        cell(step, bars[1], (-4, 3)),
        cell(step, bars[2], (-4, 3)),
    ];
    let options = IntOverlayOptions::default();
    let mut overlay = wide_builder::<I>(rt, alloc, &[&a, &b, &c], &[&d, &e, &f], options)?;
    for (rule, columns) in [
        (OverlayRule::Intersect, &bars[..]),
        (OverlayRule::Difference, &gaps[..]),
    ] {
        let mut wanted = Vec::new(alloc);
        for along in columns {
            for across in bars.iter().rev() {
                let contour = wide_contour::<I>(rt, alloc, &cell(step, *along, *across))?;
                wanted.push(Vec::from_array(alloc, [contour])?)?;
            }
        }
        assert!(rt; overlay.overlay(rule, FillRule::NonZero)? == wanted);
    }
    Ok(())
}

#[test]
fn a_grid_turned_by_a_tenth(rt: HostRuntime) -> Result<(), Fail> {
    each_wide!(rt, check_grid)
}
