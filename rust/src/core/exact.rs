//! How two shapes lie to each other as they are added: nothing is rounded.
//!
//! A shape is here the closure of its interior, the points off its contours that the fill rule fills. Contours may
//! cross, overlap and touch. [`relate`](crate::core::relate) tells relations of an arrangement, as `i_overlay` does.

use crate::core::contours::takes_contours;
use crate::core::fill_rule::FillRule;
use crate::core::integer::OverlayInt;
use crate::core::overlay::ShapeType;
use crate::core::relate::{ask_two, Relations};
use crate::core::relations::each_relation;
use crate::engine::paths::Paths;
use crate::engine::width::Query;
use crate::error::{answered, OverlayError};
use crate::ffi::{Engine, Given};
use crate::i_float::int::point::IntPoint;
use crate::i_shape::source::int::resource::IntShapeResource;

/// All relations of the contours as they are.
pub(crate) struct Exactly(pub(crate) FillRule);

impl Query for Exactly {
    type Answer = Relations;

    fn ask<E: Engine>(&self, first: Given<'_, E::C>, second: Given<'_, E::C>) -> Result<Relations, OverlayError> {
        Ok(Relations::of(E::relate_exact(self.0, first, second)?))
    }
}

/// One of them, by its bit.
struct ExactlySo(u32, FillRule);

impl Query for ExactlySo {
    type Answer = bool;

    fn ask<E: Engine>(&self, first: Given<'_, E::C>, second: Given<'_, E::C>) -> Result<bool, OverlayError> {
        E::relate_one_exact(self.0, self.1, first, second)
    }
}

/// Contours of a subject and of a clip, to be asked how they lie to each other as they were added. Queries leave them
/// as they are.
///
/// ```
/// use polyover::core::exact::ExactPredicates;
/// use polyover::i_float::int::point::IntPoint;
///
/// let triangle = [[1, 2], [2, 0], [3, 2]].map(IntPoint::from);
/// let thin = [[0, 0], [3, 2], [2, 1]].map(IntPoint::from); // (2, 1) is inside the triangle
/// assert!(ExactPredicates::<i32>::from_subj_and_clip(&triangle, &thin).interiors_intersect());
/// ```
#[derive(Debug, Clone)]
pub struct ExactPredicates<I: OverlayInt> {
    /// Which windings count as filled.
    pub fill_rule: FillRule,
    pub(crate) subject: Paths<I>,
    pub(crate) clip: Paths<I>,
}

impl<I: OverlayInt> ExactPredicates<I> {
    /// Returns a builder with room for points, under the even-odd fill rule.
    pub fn new(capacity: usize) -> Self {
        Self {
            fill_rule: FillRule::EvenOdd,
            subject: Paths::with_capacity(capacity),
            clip: Paths::new(),
        }
    }

    /// Returns a builder of these contours, under the even-odd fill rule.
    ///
    /// # Panics
    /// Where memory is refused.
    #[track_caller]
    pub fn from_subj_and_clip<R0, R1>(subj: &R0, clip: &R1) -> Self
    where
        R0: IntShapeResource<I> + ?Sized,
        R1: IntShapeResource<I> + ?Sized,
    {
        Self::from_subj_and_clip_custom(subj, clip, FillRule::EvenOdd)
    }

    /// Returns a builder of these contours, with a fill rule.
    ///
    /// # Panics
    /// Where memory is refused.
    #[track_caller]
    pub fn from_subj_and_clip_custom<R0, R1>(subj: &R0, clip: &R1, fill_rule: FillRule) -> Self
    where
        R0: IntShapeResource<I> + ?Sized,
        R1: IntShapeResource<I> + ?Sized,
    {
        let mut predicates = Self::new(0);
        predicates.fill_rule = fill_rule;
        predicates.reinit_with_subj_and_clip(subj, clip);
        predicates
    }

    /// Tells all relations at once.
    ///
    /// # Errors
    /// `Memory`; `OutOfRange`, of `i64` alone; `TooManyEdges`.
    pub fn try_relations(&self) -> Result<Relations, OverlayError> {
        I::ask(&Exactly(self.fill_rule), self.subject.as_given(), self.clip.as_given())
    }

    /// Tells all relations at once.
    ///
    /// # Panics
    /// Where [`Self::try_relations`] is refused.
    #[track_caller]
    pub fn relations(&self) -> Relations {
        answered(self.try_relations())
    }
}

takes_contours!(ExactPredicates);

/// Declares the calls, one for each relation: of a builder, and of two resources.
macro_rules! relations_of_contours {
    ($($(#[$doc:meta])* $name:ident, $exact:ident, $bit:literal;)*) => {
        impl<I: OverlayInt> ExactPredicates<I> {$(
            $(#[$doc])*
            ///
            /// # Panics
            /// Where [`Self::try_relations`] is refused.
            #[track_caller]
            pub fn $name(&self) -> bool {
                let query = ExactlySo($bit, self.fill_rule);
                answered(I::ask(&query, self.subject.as_given(), self.clip.as_given()))
            }
        )*}

        /// Exact relations in one call, under the even-odd fill rule.
        ///
        /// ```
        /// use polyover::core::exact::IntRelateExact;
        /// use polyover::i_float::int::point::IntPoint;
        ///
        /// let around = [[0, 0], [5, 0], [5, 2]].map(IntPoint::from);
        /// let thin = [[0, 0], [3, 1], [5, 2]].map(IntPoint::from);
        /// assert!(thin.within_exact(&around[..]));
        /// assert!(around.try_exact_relations(&thin[..])?.covers());
        /// # Ok::<(), polyover::error::OverlayError>(())
        /// ```
        pub trait IntRelateExact<R, I>
        where
            R: IntShapeResource<I> + ?Sized,
            I: OverlayInt,
        {
            /// Tells all relations at once.
            ///
            /// # Errors
            /// As of [`ExactPredicates::try_relations`].
            fn try_exact_relations(&self, other: &R) -> Result<Relations, OverlayError>;

            /// Tells all relations at once.
            ///
            /// # Panics
            /// Where [`Self::try_exact_relations`] is refused.
            #[track_caller]
            fn exact_relations(&self, other: &R) -> Relations {
                answered(self.try_exact_relations(other))
            }

            $(
                $(#[$doc])*
                ///
                /// # Panics
                /// Where [`Self::try_exact_relations`] is refused.
                #[track_caller]
                fn $exact(&self, other: &R) -> bool;
            )*
        }

        impl<R0, R1, I> IntRelateExact<R1, I> for R0
        where
            R0: IntShapeResource<I> + ?Sized,
            R1: IntShapeResource<I> + ?Sized,
            I: OverlayInt,
        {
            fn try_exact_relations(&self, other: &R1) -> Result<Relations, OverlayError> {
                ask_two(&Exactly(FillRule::EvenOdd), self, other)
            }

            $(
                fn $exact(&self, other: &R1) -> bool {
                    answered(ask_two(&ExactlySo($bit, FillRule::EvenOdd), self, other))
                }
            )*
        }
    };
}

each_relation!(relations_of_contours);
