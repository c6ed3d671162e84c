//! How two shapes lie to each other.

use crate::core::contours::{takes_contours, takes_contours_by_old_names};
use crate::core::exact::Exactly;
use crate::core::fill_rule::FillRule;
use crate::core::integer::OverlayInt;
use crate::core::overlay::ShapeType;
use crate::core::relations::each_relation;
pub use crate::core::relations::Relations;
use crate::core::solver::Solver;
use crate::engine::paths::Paths;
use crate::engine::width::Query;
use crate::error::{answered, OverlayError};
use crate::ffi::{Engine, Given};
use crate::i_float::int::point::IntPoint;
use crate::i_shape::int::shape::{IntContour, IntShape};
use crate::i_shape::source::int::resource::IntShapeResource;

struct Related(FillRule, Solver);

impl Query for Related {
    type Answer = Relations;

    fn ask<E: Engine>(&self, first: Given<'_, E::C>, second: Given<'_, E::C>) -> Result<Relations, OverlayError> {
        Ok(Relations::of(E::relate(self.0, self.1, first, second)?))
    }
}

/// One relation, by its bit.
struct RelatedSo(u32, FillRule, Solver);

impl Query for RelatedSo {
    type Answer = bool;

    fn ask<E: Engine>(&self, first: Given<'_, E::C>, second: Given<'_, E::C>) -> Result<bool, OverlayError> {
        E::relate_one(self.0, self.1, self.2, first, second)
    }
}

/// Contours of a subject and of a clip, to be asked how they lie to each other. Queries leave what was added as it is.
#[derive(Debug, Clone)]
pub struct PredicateOverlay<I: OverlayInt> {
    /// How edges are split.
    pub solver: Solver,
    /// Which windings count as filled.
    pub fill_rule: FillRule,
    pub(crate) subject: Paths<I>,
    pub(crate) clip: Paths<I>,
}

impl<I: OverlayInt> PredicateOverlay<I> {
    /// A builder with room for points, under the even-odd fill rule.
    pub fn new(capacity: usize) -> Self {
        Self {
            solver: Solver::default(),
            fill_rule: FillRule::EvenOdd,
            subject: Paths::with_capacity(capacity),
            clip: Paths::new(),
        }
    }

    /// A builder of these contours, under the even-odd fill rule.
    ///
    /// # Panics
    /// Where memory is refused.
    #[track_caller]
    pub fn from_subj_and_clip<R0, R1>(subj: &R0, clip: &R1) -> Self
    where
        R0: IntShapeResource<I> + ?Sized,
        R1: IntShapeResource<I> + ?Sized,
    {
        Self::from_subj_and_clip_custom(subj, clip, FillRule::EvenOdd, Solver::default())
    }

    /// A builder of these contours, with a fill rule and a solver.
    ///
    /// # Panics
    /// Where memory is refused.
    #[track_caller]
    pub fn from_subj_and_clip_custom<R0, R1>(subj: &R0, clip: &R1, fill_rule: FillRule, solver: Solver) -> Self
    where
        R0: IntShapeResource<I> + ?Sized,
        R1: IntShapeResource<I> + ?Sized,
    {
        let mut overlay = Self::new(0);
        overlay.fill_rule = fill_rule;
        overlay.solver = solver;
        overlay.reinit_with_subj_and_clip(subj, clip);
        overlay
    }

    /// All relations at once. They are those of one arrangement, in which edges are split by the solver: those of
    /// shapes as small as a few units may differ from those of the contours as they are.
    ///
    /// # Errors
    /// `Memory`; `OutOfRange`, of `i64` alone; `TooManyEdges`; `NotSettled`, of `Solver::ROUNDS` alone.
    pub fn try_relations(&self) -> Result<Relations, OverlayError> {
        self.try_relations_with(self.fill_rule, self.solver)
    }

    /// The same under another fill rule, by another solver.
    pub(crate) fn try_relations_with(&self, fill_rule: FillRule, solver: Solver) -> Result<Relations, OverlayError> {
        I::ask(
            &Related(fill_rule, solver),
            self.subject.as_given(),
            self.clip.as_given(),
        )
    }

    /// All relations at once of the contours as they are, under a fill rule.
    pub(crate) fn try_exact_relations_with(&self, fill_rule: FillRule) -> Result<Relations, OverlayError> {
        I::ask(&Exactly(fill_rule), self.subject.as_given(), self.clip.as_given())
    }

    /// Whether the relation with a bit holds, under a fill rule, by a solver.
    pub(crate) fn try_relation(&self, bit: u32, fill_rule: FillRule, solver: Solver) -> Result<bool, OverlayError> {
        I::ask(
            &RelatedSo(bit, fill_rule, solver),
            self.subject.as_given(),
            self.clip.as_given(),
        )
    }
}

takes_contours!(PredicateOverlay);
takes_contours_by_old_names!(PredicateOverlay);

/// Asks of two resources.
pub(crate) fn ask_two<Q, R0, R1, I>(query: &Q, subject: &R0, clip: &R1) -> Result<Q::Answer, OverlayError>
where
    Q: Query,
    R0: IntShapeResource<I> + ?Sized,
    R1: IntShapeResource<I> + ?Sized,
    I: OverlayInt,
{
    let (subject, clip) = (Paths::of(subject)?, Paths::of(clip)?);
    I::ask(query, subject.as_given(), clip.as_given())
}

/// Declares the calls, one for each relation: of a builder, and of two resources.
macro_rules! relations_of_arrangements {
    ($($(#[$doc:meta])* $name:ident, $exact:ident, $bit:literal;)*) => {
        impl<I: OverlayInt> PredicateOverlay<I> {$(
            $(#[$doc])*
            ///
            /// # Panics
            /// Where [`Self::try_relations`] is refused.
            #[track_caller]
            pub fn $name(&mut self) -> bool {
                answered(self.try_relation($bit, self.fill_rule, self.solver))
            }
        )*}

        /// Relations in one call, under the even-odd fill rule.
        ///
        /// ```
        /// use polyover::core::relate::IntRelate;
        /// use polyover::i_float::int::point::IntPoint;
        ///
        /// let square = [[0, 0], [10, 0], [10, 10], [0, 10]].map(IntPoint::from);
        /// assert!(square.intersects(&square[..]));
        /// assert!(square.try_relations(&square[..])?.covers());
        /// # Ok::<(), polyover::error::OverlayError>(())
        /// ```
        pub trait IntRelate<R, I>
        where
            R: IntShapeResource<I> + ?Sized,
            I: OverlayInt,
        {
            /// Tells all relations at once.
            ///
            /// # Errors
            /// As of [`PredicateOverlay::try_relations`].
            fn try_relations(&self, other: &R) -> Result<Relations, OverlayError>;

            $(
                $(#[$doc])*
                ///
                /// # Panics
                /// Where [`Self::try_relations`] is refused.
                #[track_caller]
                fn $name(&self, other: &R) -> bool;
            )*
        }

        impl<R0, R1, I> IntRelate<R1, I> for R0
        where
            R0: IntShapeResource<I> + ?Sized,
            R1: IntShapeResource<I> + ?Sized,
            I: OverlayInt,
        {
            fn try_relations(&self, other: &R1) -> Result<Relations, OverlayError> {
                ask_two(&Related(FillRule::EvenOdd, Solver::default()), self, other)
            }

            $(
                fn $name(&self, other: &R1) -> bool {
                    answered(ask_two(&RelatedSo($bit, FillRule::EvenOdd, Solver::default()), self, other))
                }
            )*
        }
    };
}

each_relation!(relations_of_arrangements);
