//! A plate cut into tiles, and the lines of its grid.

use crate::figures::{COUNT, coordinate, point};
use i_overlay::fill_rule::FillRule;
use i_overlay::i_shape::int::path::PathRef;
use i_overlay::solver::Solver;
use overlay_tiles::grid::{Grid, grid_fits};
use overlay_tiles::lines::grid_lines;
use overlay_tiles::multiples::{are_few, grid_multiples};
use overlay_tiles::slice::{slice_by_grid, slice_by_grid_with_solver};
use overlay_tiles::span::IntSpan;
use std::process::Abort;
use std::test::Fail;

const RULE: FillRule = FillRule::NonZero;

// Fifty cells in a row.
#[test]
fn cells_of_a_plate(rt: HostRuntime) -> Result<(), Fail> {
    let alloc = rt.alloc();
    let rows = COUNT / 50;
    let top = 2 * coordinate(rows);
    let points = [point(0, 0), point(150, 0), point(150, top), point(0, top)];
    let (shape, grid) = (
        PathRef::new(&points),
        Grid {
            width: 3,
            height: 2,
        },
    );
    assert!(&rt; grid_fits(&shape, grid));
    assert!(&rt; grid_lines(alloc, &shape, grid)?.len() == 49 + rows - 1);
    let snapped = Solver::SNAPPED;
    for shapes in [
        slice_by_grid(alloc, &shape, grid, RULE)?,
        slice_by_grid_with_solver(alloc, &shape, grid, RULE, snapped)?,
    ] {
        assert!(&rt; shapes.len() == COUNT);
        for cell in &shapes {
            assert!(&rt; cell.len() == 1 && cell[0].len() == 4);
        }
    }
    Ok(())
}

// A thousand multiples are few, and one more is not; they are given however many there are.
#[test]
fn multiples_of_a_grid(rt: HostRuntime) -> Result<(), Fail> {
    let up_to = |greatest| IntSpan { least: 0, greatest };
    assert!(&rt; are_few(3, up_to(3001)) && !are_few(3, up_to(3004)));
    let multiples = grid_multiples(rt.alloc(), 3, up_to(6001))?;
    assert!(&rt; multiples.len() == 2000);
    for number in 0..2000 {
        assert!(&rt; multiples[number] == 3 * number as i32 + 3);
    }
    Ok(())
}
