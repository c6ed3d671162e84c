//! Tests of options and solvers.

use i_overlay::i_float::int::number::uint::UIntNumber;
use i_overlay::overlay::{ContourDirection, IntOverlayOptions};
use i_overlay::solver::Solver;
use std::process::Abort;

// Checks options that keep input points, keep output points, or let no output contour visit a point
// twice, and set nothing else.
fn check_options<U: UIntNumber + PartialEq + From<u8>>(
    rt: &impl Abort,
    options: &IntOverlayOptions<U>,
    keeps_input: bool,
    keeps_output: bool,
    ogc: bool,
) {
    assert!(rt; options.preserve_input_collinear == keeps_input);
    assert!(rt; options.preserve_output_collinear == keeps_output);
    assert!(rt; options.ogc == ogc);
    assert!(rt; options.output_direction == ContourDirection::CounterClockwise);
    assert!(rt; options.min_output_area == U::from(0));
}

// Checks what each constructor of options sets.
fn check_all_options<U: UIntNumber + PartialEq + From<u8>>(rt: &impl Abort) {
    check_options::<U>(rt, &IntOverlayOptions::default(), false, false, false);
    check_options::<U>(rt, &IntOverlayOptions::keep_all_points(), true, true, false);
    check_options::<U>(
        rt,
        &IntOverlayOptions::keep_output_points(),
        false,
        true,
        false,
    );
    check_options::<U>(rt, &IntOverlayOptions::ogc(), false, false, true);
}

#[test]
fn options_set_what_they_say(rt: HostRuntime) {
    check_all_options::<u32>(&rt);
    check_all_options::<u64>(&rt);
    check_all_options::<u128>(&rt);
}

#[test]
fn the_default_solver_is_the_absolute_one(rt: HostRuntime) {
    assert!(rt; Solver::default() == Solver::ABSOLUTE);
}
