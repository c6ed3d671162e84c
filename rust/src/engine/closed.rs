//! Edges walked round as closed contours.

use crate::engine::lists::{listed, make_room};
use crate::error::OverlayError;
use crate::i_float::int::number::int::IntNumber;
use crate::i_float::int::point::IntPoint;
use crate::i_shape::int::shape::IntContour;
use ::core::iter::repeat;
use alloc::vec::Vec;

/// Steps from point to point, in order, and how many of those that leave a point are taken: that number stands at the
/// place of the first one.
struct Steps<I: IntNumber> {
    steps: Vec<(IntPoint<I>, IntPoint<I>)>,
    taken: Vec<usize>,
}

impl<I: IntNumber> Steps<I> {
    /// Where the next step that leaves the point leads, which is taken with that.
    fn take(&mut self, from: IntPoint<I>) -> Option<IntPoint<I>> {
        let first = self.steps.partition_point(|it| it.0 < from);
        let taken = self.taken.get_mut(first)?;
        let &(start, to) = self.steps.get(first.saturating_add(*taken))?;
        if start != from {
            return None;
        }
        *taken = taken.saturating_add(1);
        Some(to)
    }

    /// The points of a closed walk from the point, if a step is left there.
    fn walk(&mut self, from: IntPoint<I>) -> Result<Option<IntContour<I>>, OverlayError> {
        let mut walk = IntContour::new();
        let mut next = self.take(from);
        while let Some(to) = next {
            make_room(&mut walk, 1)?;
            walk.push(to);
            if to == from {
                return Ok(Some(walk));
            }
            next = self.take(to);
        }
        if walk.is_empty() {
            Ok(None)
        } else {
            Err(OverlayError::NotClosed)
        }
    }
}

/// Walks round the edges on one side, each once, and hands in the points of each closed walk. `ends` has both ends of
/// each edge, and `sides` the number of its side.
pub(crate) fn closed_walks<I: IntNumber>(
    ends: &[IntPoint<I>],
    sides: &[u8],
    side: u8,
    mut add: impl FnMut(&IntContour<I>) -> Result<(), OverlayError>,
) -> Result<(), OverlayError> {
    let steps = ends.chunks_exact(2).zip(sides).filter_map(|(it, &on)| match *it {
        [a, b] if on == side && a != b => Some((a, b)),
        _ => None,
    });
    let mut steps = listed(sides.len(), steps)?;
    steps.sort_unstable();
    let taken = listed(steps.len(), repeat(0))?;
    let starts = listed(steps.len(), steps.iter().map(|it| it.0))?;
    let mut left = Steps { steps, taken };
    for start in starts {
        while let Some(walk) = left.walk(start)? {
            add(&walk)?;
        }
    }
    Ok(())
}
