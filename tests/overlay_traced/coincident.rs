//! Given edges on one line: each piece names those that lie on it.

use overlay_geom::fill_rule::FillRule;
use overlay_geom::number::IntNumber;
use overlay_geom::options::ShapeType;
use overlay_geom::point::IntPoint;
use overlay_geom::solver::Solver;
use overlay_traced::given::GivenEdge;
use overlay_traced::source::Source;
use overlay_traced::told::TracedEdges;
use overlay_traced::traced::traced_edges;
use std::alloc::Global;
use std::process::Abort;
use std::test::Fail;

// The edge of the x-axis between two places.
fn along<I: IntNumber + From<i16>>(from: i16, to: i16, shape_type: ShapeType) -> GivenEdge<I> {
    GivenEdge {
        a: IntPoint::new(from.into(), 0_i16.into()),
        b: IntPoint::new(to.into(), 0_i16.into()),
        shape_type,
    }
}

// Whether the sources of the edge with the number are these, in some order.
fn are_sources<I>(traced: &TracedEdges<I>, edge: usize, wanted: &[Source]) -> bool {
    let mut from = 0;
    if edge > 0 {
        from = traced.source_ends[edge - 1];
    }
    let found = &traced.sources[from..traced.source_ends[edge]];
    found.len() == wanted.len() && wanted.iter().all(|it| found.contains(it))
}

fn source(edge: usize, is_cut: bool, is_reversed: bool) -> Source {
    Source {
        edge,
        is_cut,
        is_reversed,
    }
}

// An edge from 0 to 4, one back from 6 to 2, and two from 2 to 4: between 2 and 4 lie all four.
fn traced<I: IntNumber + PartialEq + From<i16>>(
    rt: &impl Abort,
    alloc: Global,
    solver: Solver,
) -> Result<(), Fail> {
    let edges: [GivenEdge<I>; 4] = [
        along(0, 4, ShapeType::Subject),
        along(6, 2, ShapeType::Clip),
        along(2, 4, ShapeType::Subject),
        along(2, 4, ShapeType::Clip),
    ];
    let traced = traced_edges(alloc, &edges, None, FillRule::NonZero, solver)?;
    let x: [I; 6] = [0_i16, 2, 2, 4, 4, 6].map(I::from);
    let zero: I = 0_i16.into();
    assert!(rt; traced.coordinates.len() == 12);
    for i in 0..6 {
        assert!(rt; traced.coordinates[2 * i] == x[i]);
        assert!(rt; traced.coordinates[2 * i + 1] == zero);
    }
    assert!(rt; traced.fills.len() == 3);
    assert!(rt; are_sources(&traced, 0, &[source(0, true, false)]));
    let middle = [
        source(0, true, false),
        source(1, true, true),
        source(2, false, false),
        source(3, false, false),
    ];
    assert!(rt; are_sources(&traced, 1, &middle));
    assert!(rt; are_sources(&traced, 2, &[source(1, true, true)]));
    Ok(())
}

#[test]
fn each_piece_names_its_edges(rt: HostRuntime) -> Result<(), Fail> {
    for solver in [Solver::SNAPPED, Solver::ABSOLUTE] {
        traced::<i64>(&rt, rt.alloc(), solver)?;
        traced::<i32>(&rt, rt.alloc(), solver)?;
    }
    Ok(())
}

// Edges there and back leave none, and one between equal points is none.
#[test]
fn cancelled_edges_leave_none(rt: HostRuntime) -> Result<(), Fail> {
    let rt = &rt;
    let alloc = rt.alloc();
    let edges: [GivenEdge<i64>; 3] = [
        along(0, 4, ShapeType::Subject),
        along(4, 0, ShapeType::Subject),
        along(2, 2, ShapeType::Clip),
    ];
    let traced = traced_edges(alloc, &edges, None, FillRule::NonZero, Solver::SNAPPED)?;
    assert!(rt; traced.coordinates.is_empty());
    assert!(rt; traced.source_ends.is_empty());
    assert!(rt; traced.sources.is_empty());
    Ok(())
}
