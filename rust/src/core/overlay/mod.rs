//! The builder of overlays.

mod adding;
mod deprecated;
mod options;
pub(crate) mod queries;

pub use options::{ContourDirection, IntOverlayOptions};

use crate::core::extract::BooleanExtractionBuffer;
use crate::core::integer::OverlayInt;
use crate::core::solver::Solver;
use crate::engine::paths::Paths;

/// To what a contour belongs.
#[derive(Debug, Clone, Copy, PartialEq, Eq, Hash)]
pub enum ShapeType {
    /// To the subject.
    Subject,
    /// To the clip.
    Clip,
}

/// Contours of a subject and of a clip, to be asked. Queries leave what was added as it is.
///
/// ```
/// use polyover::core::fill_rule::FillRule;
/// use polyover::core::overlay::{Overlay, ShapeType};
/// use polyover::core::overlay_rule::OverlayRule;
/// use polyover::i_float::int::point::IntPoint;
///
/// let mut overlay = Overlay::new(8);
/// overlay.add_contour(&[[0, 0], [4, 0], [4, 4], [0, 4]].map(IntPoint::from), ShapeType::Subject);
/// overlay.add_contour(&[[2, 2], [6, 2], [6, 6], [2, 6]].map(IntPoint::from), ShapeType::Clip);
/// assert_eq!(overlay.overlay(OverlayRule::Union, FillRule::NonZero).len(), 1);
/// let shared = overlay.try_overlay(OverlayRule::Intersect, FillRule::NonZero)?;
/// assert_eq!(shared, [[[[2, 4], [2, 2], [4, 2], [4, 4]].map(IntPoint::from)]]);
/// # Ok::<(), polyover::error::OverlayError>(())
/// ```
#[derive(Debug, Clone)]
pub struct Overlay<I: OverlayInt> {
    /// How edges are split.
    pub solver: Solver,
    /// How answers look.
    pub options: IntOverlayOptions<I::WideUInt>,
    /// Room for extractions; the library takes its own.
    pub boolean_buffer: Option<BooleanExtractionBuffer<I>>,
    pub(crate) subject: Paths<I>,
    pub(crate) clip: Paths<I>,
}
