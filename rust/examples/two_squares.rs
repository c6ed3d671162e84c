//! The overlays of two squares, which of the shapes lie in which holes, and where a line lies in them.
#![allow(clippy::indexing_slicing)]

use polyover::core::{fill_rule::FillRule, overlay::Overlay, overlay_rule::OverlayRule};
use polyover::error::OverlayError;
use polyover::i_float::int::point::IntPoint;
use polyover::string::clip::{ClipRule, IntClip};

fn main() -> Result<(), OverlayError> {
    let subject = [[0, 0], [4, 0], [4, 4], [0, 4]].map(IntPoint::from);
    let clip = [[2, 2], [6, 2], [6, 6], [2, 6]].map(IntPoint::from);
    let overlay = Overlay::from_subj_and_clip(&subject, &clip);
    for rule in [
        OverlayRule::Union,
        OverlayRule::Intersect,
        OverlayRule::Difference,
        OverlayRule::Xor,
    ] {
        let answer = overlay.try_answer(rule, FillRule::NonZero)?;
        println!(
            "{rule:?}: {} shapes of {} points",
            answer.shapes().len(),
            answer.point_count()
        );
    }
    let links = overlay
        .try_overlay_hierarchy(OverlayRule::Union, FillRule::NonZero)?
        .links;
    println!("{} shapes lie in holes", links.len());
    let inside = ClipRule {
        invert: false,
        boundary_included: false,
    };
    let line = [[-1, 3], [5, 3]].map(IntPoint::from);
    for path in subject.try_clip_source(&line, FillRule::NonZero, inside)? {
        println!("inside: {} to {}", path[0], path[1]);
    }
    println!("the library is {}", polyover::built());
    Ok(())
}
