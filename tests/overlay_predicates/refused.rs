//! Queries whose memory is refused: the builder stays, and answers once it is granted.

use crate::asked::{WITHIN, points};
use overlay_geom::error::OverlayError;
use overlay_geom::point::in_range;
use overlay_predicates::exact_predicates::{ExactPredicates, ShapeType};
use refusing_alloc::refusing::Refusing;
use std::alloc::Global;
use std::test::Fail;

// More requests than a call makes.
const PLENTY: u64 = 10_000;

type Built<'m> = ExactPredicates<i32, &'m Refusing<Global>>;

// The answers of the queries, in the order of `ask`.
const ANSWERS: [bool; 8] = [true, true, false, false, true, false, false, true];

// Asks the query with this number. The last is whether all relations are those wanted.
fn ask(predicates: &Built<'_>, query: usize) -> Result<bool, OverlayError> {
    match query {
        0 => predicates.intersects(),
        1 => predicates.interiors_intersect(),
        2 => predicates.touches(),
        3 => predicates.point_intersects(),
        4 => predicates.within(),
        5 => predicates.disjoint(),
        6 => predicates.covers(),
        _ => Ok(predicates.relations()? == WITHIN),
    }
}

// A square within a square. All but `within` is told by the first edges.
#[test]
fn a_refused_query_changes_nothing(rt: HostRuntime) -> Result<(), Fail> {
    let alloc = rt.alloc();
    let square = points::<i32>(&rt, alloc, &[[0, 0], [2, 0], [2, 2], [0, 2]])?;
    let round = points::<i32>(&rt, alloc, &[[-1, -1], [3, -1], [3, 3], [-1, 3]])?;
    assert!(rt; in_range(&square) && in_range(&round));
    let memory = Refusing::new(alloc, PLENTY);
    let mut predicates: Built<'_> = ExactPredicates::new(&memory, 8)?;
    predicates.add_contour(&square, ShapeType::Subject)?;
    predicates.add_contour(&round, ShapeType::Clip)?;
    for query in 0..8 {
        let mut granted = 0;
        let mut told = Err(OverlayError::Memory);
        while told == Err(OverlayError::Memory) && granted < PLENTY {
            memory.grant(granted);
            told = ask(&predicates, query);
            memory.grant(PLENTY);
            assert!(rt; predicates.relations() == Ok(WITHIN));
            granted += 1;
        }
        assert!(rt; granted > 1 && told == Ok(ANSWERS[query]));
    }
    Ok(())
}
