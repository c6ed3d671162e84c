//! The clip rules, and what two of them leave of a path in and out of a square.

use overlay_string::clip_rule::ClipRule;
use small_points::contours::Points;

pub(crate) const INSIDE: ClipRule = ClipRule {
    invert: false,
    boundary_included: false,
};

pub(crate) const OUTSIDE: ClipRule = ClipRule {
    invert: true,
    boundary_included: false,
};

pub(crate) const WITH_BOUNDARY: ClipRule = ClipRule {
    invert: false,
    boundary_included: true,
};

pub(crate) const NOT_WITHIN: ClipRule = ClipRule {
    invert: true,
    boundary_included: true,
};

/// A square of 20 round the origin.
pub(crate) const SQUARE: Points<'static> = &[(-10, -10), (-10, 10), (10, 10), (10, -10)];

/// A path in and out of the square.
pub(crate) const IN_AND_OUT: Points<'static> = &[
    (-20, 10),
    (-20, 0),
    (0, 0),
    (0, 10),
    (5, 10),
    (20, -5),
    (5, -5),
    (0, -10),
    (-5, -5),
    (-15, -15),
];

/// Its parts inside the square, without the boundary.
pub(crate) const PARTED: &[Points<'static>] = &[
    &[(10, -5), (5, -5), (0, -10), (-5, -5), (-10, -10)],
    &[(-10, 0), (0, 0), (0, 10)],
    &[(5, 10), (10, 5)],
];

/// Those with the boundary: a piece along it joins two of them.
pub(crate) const JOINED: &[Points<'static>] = &[
    &[(10, -5), (5, -5), (0, -10), (-5, -5), (-10, -10)],
    &[(-10, 0), (0, 0), (0, 10), (5, 10), (10, 5)],
];
