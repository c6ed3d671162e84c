//! Overlay rules, fill rules and relations, in the order of their numbers; `examples/asked.rs` has them too.

use polyover::core::fill_rule::FillRule;
use polyover::core::overlay_rule::OverlayRule;

pub const RULES: [OverlayRule; 7] = [
    OverlayRule::Subject,
    OverlayRule::Clip,
    OverlayRule::Intersect,
    OverlayRule::Union,
    OverlayRule::Difference,
    OverlayRule::InverseDifference,
    OverlayRule::Xor,
];

pub const FILLS: [FillRule; 4] = [
    FillRule::EvenOdd,
    FillRule::NonZero,
    FillRule::Positive,
    FillRule::Negative,
];

/// Whether each relation holds, of all that were told at once or of a builder.
macro_rules! holding {
    ($it:expr) => {
        [
            $it.intersects(),
            $it.interiors_intersect(),
            $it.touches(),
            $it.point_intersects(),
            $it.within(),
            $it.disjoint(),
            $it.covers(),
        ]
    };
}
pub(crate) use holding;
