//! The calls of the library at each width, made safe.

use super::given::Given;
use super::graph::{Arranged, Graph};
use super::held::Held;
use super::ready::{Prepared, Ready};
use super::sys::{self, EdgeList};
use super::traced::HeldTrace;
use super::width::Width;
use crate::core::fill_rule::FillRule;
use crate::core::overlay_rule::OverlayRule;
use crate::core::solver::Solver;
use crate::engine::options::{Keep, Options, SliceOptions};
use crate::error::OverlayError;
use ::core::ffi::CStr;

/// What a status says.
pub(super) fn done(status: sys::Status) -> Result<(), OverlayError> {
    if status == sys::OK {
        Ok(())
    } else {
        Err(OverlayError::of(status))
    }
}

/// The text of a status.
pub(crate) fn text_of(status: sys::Status) -> &'static str {
    // SAFETY: the text is never null, ends with a zero and is there for ever (polyover.h).
    let text = unsafe { CStr::from_ptr(sys::polyover_status_text(status)) };
    text.to_str().unwrap_or("refused")
}

/// Whether the library is made of the proved module.
pub(crate) fn is_proved() -> bool {
    // SAFETY: the call takes nothing, and reads a constant.
    let built = unsafe { sys::polyover_built() };
    built == sys::PROVED
}

/// The calls at a width. In each, all pointers are of values that outlive the call, with the counts of their slices,
/// and what the call writes to lies apart from them.
pub(crate) trait Engine: Width {
    /// The shapes of an overlay.
    fn overlay(
        rule: OverlayRule,
        fill: FillRule,
        options: &Options,
        subject: Given<'_, Self::C>,
        clip: Given<'_, Self::C>,
    ) -> Result<Held<Self>, OverlayError> {
        let (rule, fill, options) = (rule.number(), fill.number(), options.raw());
        let (subject, clip) = (subject.raw(), clip.raw());
        // SAFETY: as said above.
        unsafe { Held::of(|to| (Self::CALLS.overlay)(rule, fill, &options, &subject, &clip, to)) }
    }

    /// The shapes of an overlay, with links.
    fn hierarchy(
        rule: OverlayRule,
        fill: FillRule,
        options: &Options,
        subject: Given<'_, Self::C>,
        clip: Given<'_, Self::C>,
    ) -> Result<Held<Self>, OverlayError> {
        let (rule, fill, options) = (rule.number(), fill.number(), options.raw());
        let (subject, clip) = (subject.raw(), clip.raw());
        // SAFETY: as said above.
        unsafe { Held::of(|to| (Self::CALLS.hierarchy)(rule, fill, &options, &subject, &clip, to)) }
    }

    /// The shapes of an overlay, with the filled sides of each step.
    fn vectors(
        rule: OverlayRule,
        fill: FillRule,
        options: &Options,
        subject: Given<'_, Self::C>,
        clip: Given<'_, Self::C>,
    ) -> Result<Held<Self>, OverlayError> {
        let (rule, fill, options) = (rule.number(), fill.number(), options.raw());
        let (subject, clip) = (subject.raw(), clip.raw());
        // SAFETY: as said above.
        unsafe { Held::of(|to| (Self::CALLS.vectors)(rule, fill, &options, &subject, &clip, to)) }
    }

    /// The shapes to which contours are simplified.
    fn simplify(fill: FillRule, options: &Options, contours: Given<'_, Self::C>) -> Result<Held<Self>, OverlayError> {
        let (options, contours) = (options.raw(), contours.raw());
        // SAFETY: as said above.
        unsafe { Held::of(|to| (Self::CALLS.simplify)(fill.number(), &options, &contours, to)) }
    }

    /// The same of a shape, where one simple contour is answered so whatever the smallest area is; and whether it is
    /// answered as it is given.
    fn simplify_shape(
        fill: FillRule,
        options: &Options,
        contours: Given<'_, Self::C>,
    ) -> Result<(Held<Self>, bool), OverlayError> {
        let (fill, options, contours) = (fill.number(), options.raw(), contours.raw());
        let mut as_given = 0;
        let at = &mut as_given;
        // SAFETY: as said above.
        let held = unsafe { Held::of(|to| (Self::CALLS.simplify_shape)(fill, &options, &contours, to, at)) }?;
        Ok((held, as_given == 1))
    }

    /// The shapes into which lines cut a subject, as options ask.
    fn slice_custom(
        fill: FillRule,
        options: &SliceOptions,
        subject: Given<'_, Self::C>,
        lines: Given<'_, Self::C>,
    ) -> Result<Held<Self>, OverlayError> {
        let (fill, options) = (fill.number(), options.raw());
        let (subject, lines) = (subject.raw(), lines.raw());
        // SAFETY: as said above.
        unsafe { Held::of(|to| (Self::CALLS.slice_custom)(fill, &options, &subject, &lines, to)) }
    }

    /// The shapes into which lines cut a subject.
    fn slice(
        fill: FillRule,
        solver: Solver,
        subject: Given<'_, Self::C>,
        lines: Given<'_, Self::C>,
    ) -> Result<Held<Self>, OverlayError> {
        let (subject, lines) = (subject.raw(), lines.raw());
        // SAFETY: as said above.
        unsafe { Held::of(|to| (Self::CALLS.slice)(fill.number(), solver.number(), &subject, &lines, to)) }
    }

    /// The tiles into which the cells of a grid cut a subject: `cell` has their width and height, from 1 on.
    fn tiles(
        fill: FillRule,
        solver: Solver,
        subject: Given<'_, Self::C>,
        cell: Given<'_, Self::C>,
    ) -> Result<Held<Self>, OverlayError> {
        // (a wider cell than the range has the same lines)
        let side = |at: usize| cell.coordinates.get(at).copied().unwrap_or_default().min(Self::END);
        let (fill, solver, width, height) = (fill.number(), solver.number(), side(0), side(1));
        let subject = subject.raw();
        // SAFETY: as said above.
        unsafe { Held::of(|to| (Self::CALLS.tiles)(fill, solver, &subject, width, height, to)) }
    }

    /// The parts of lines that a clip keeps.
    fn clip(
        fill: FillRule,
        keep: Keep,
        solver: Solver,
        shape: Given<'_, Self::C>,
        lines: Given<'_, Self::C>,
    ) -> Result<Held<Self>, OverlayError> {
        let options = keep.with(solver);
        let (shape, lines) = (shape.raw(), lines.raw());
        // SAFETY: as said above.
        unsafe { Held::of(|to| (Self::CALLS.clip)(fill.number(), &options, &shape, &lines, to)) }
    }

    /// The edges of the arrangement.
    fn edges(
        fill: FillRule,
        solver: Solver,
        subject: Given<'_, Self::C>,
        clip: Given<'_, Self::C>,
    ) -> Result<Held<Self>, OverlayError> {
        let (subject, clip) = (subject.raw(), clip.raw());
        // SAFETY: as said above.
        unsafe { Held::of(|to| (Self::CALLS.edges)(fill.number(), solver.number(), &subject, &clip, to)) }
    }

    /// The bits of the relations that hold.
    fn relate(
        fill: FillRule,
        solver: Solver,
        subject: Given<'_, Self::C>,
        clip: Given<'_, Self::C>,
    ) -> Result<u32, OverlayError> {
        let (subject, clip, mut to) = (subject.raw(), clip.raw(), 0);
        // SAFETY: as said above.
        done(unsafe { (Self::CALLS.relate)(fill.number(), solver.number(), &subject, &clip, &mut to) })?;
        Ok(to)
    }

    /// Whether the relation with the bit holds.
    fn relate_one(
        relation: u32,
        fill: FillRule,
        solver: Solver,
        subject: Given<'_, Self::C>,
        clip: Given<'_, Self::C>,
    ) -> Result<bool, OverlayError> {
        let (fill, solver) = (fill.number(), solver.number());
        let (subject, clip, mut to) = (subject.raw(), clip.raw(), 0);
        // SAFETY: as said above.
        done(unsafe { (Self::CALLS.relate_one)(relation, fill, solver, &subject, &clip, &mut to) })?;
        Ok(to == 1)
    }

    /// The bits of the relations that hold of the contours as they are.
    fn relate_exact(
        fill: FillRule,
        subject: Given<'_, Self::C>,
        clip: Given<'_, Self::C>,
    ) -> Result<u32, OverlayError> {
        let (subject, clip, mut to) = (subject.raw(), clip.raw(), 0);
        // SAFETY: as said above.
        done(unsafe { (Self::CALLS.relate_exact)(fill.number(), &subject, &clip, &mut to) })?;
        Ok(to)
    }

    /// Whether the relation with the bit holds of them.
    fn relate_one_exact(
        relation: u32,
        fill: FillRule,
        subject: Given<'_, Self::C>,
        clip: Given<'_, Self::C>,
    ) -> Result<bool, OverlayError> {
        let (subject, clip, mut to) = (subject.raw(), clip.raw(), 0);
        // SAFETY: as said above.
        done(unsafe { (Self::CALLS.relate_one_exact)(relation, fill.number(), &subject, &clip, &mut to) })?;
        Ok(to == 1)
    }

    /// Writes where points lie in resolved contours; there is a place for each point.
    fn locate(shape: Given<'_, Self::C>, points: &[Self::C], to: &mut [u8]) -> Result<(), OverlayError> {
        let (shape, mut unresolved) = (shape.raw(), 0);
        let (at, count, room) = (points.as_ptr(), points.len(), to.len());
        // SAFETY: as said above.
        let status = unsafe { (Self::CALLS.locate)(&shape, at, count, to.as_mut_ptr(), room, &mut unresolved) };
        match status {
            sys::NOT_RESOLVED => Err(OverlayError::NotResolved(unresolved)),
            _ => done(status),
        }
    }

    /// Prepares a shape.
    fn prepare(
        fill: FillRule,
        solver: Solver,
        contours: Given<'_, Self::C>,
    ) -> Result<Prepared<sys::Prepared>, OverlayError> {
        let (fill, solver, contours) = (fill.number(), solver.number(), contours.raw());
        // SAFETY: as said above.
        let ready = unsafe { Ready::of(|to| (Self::CALLS.prepare)(fill, solver, &contours, to)) };
        Ok(Self::prepared(ready?))
    }

    /// Prepares a shape as it is given.
    fn prepare_exact(fill: FillRule, contours: Given<'_, Self::C>) -> Result<Prepared<sys::Exact>, OverlayError> {
        let (fill, contours) = (fill.number(), contours.raw());
        // SAFETY: as said above.
        let ready = unsafe { Ready::of(|to| (Self::CALLS.prepare_exact)(fill, &contours, to)) };
        Ok(Self::prepared(ready?))
    }

    /// Arranges a subject and a clip, with points on one line or without these.
    fn arrange(
        fill: FillRule,
        solver: Solver,
        keeps_given: bool,
        subject: Given<'_, Self::C>,
        clip: Given<'_, Self::C>,
    ) -> Result<Graph, OverlayError> {
        let (fill, solver, keep) = (fill.number(), solver.number(), keeps_given.into());
        let (subject, clip) = (subject.raw(), clip.raw());
        // SAFETY: as said above.
        let graph = unsafe { Arranged::of(|to| (Self::CALLS.arrange)(fill, solver, keep, &subject, &clip, to)) };
        Ok(Self::graph(graph?))
    }

    /// The edges that a rule selects of the arrangement of edges: coordinates of both ends of each, and the numbers of
    /// their sides, 0 or 1.
    fn trace(
        rule: OverlayRule,
        fill: FillRule,
        solver: Solver,
        coordinates: &[Self::C],
        sides: &[u8],
    ) -> Result<HeldTrace<Self>, OverlayError> {
        let (rule, fill, solver) = (rule.number(), fill.number(), solver.number());
        let edges = EdgeList::of(coordinates, sides);
        // SAFETY: as said above.
        unsafe { HeldTrace::of(|to| (Self::CALLS.trace)(rule, fill, solver, &edges, to)) }
    }
}

impl<W: Width> Engine for W {}
