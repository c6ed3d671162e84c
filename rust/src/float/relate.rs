//! Relations of floats.

use crate::core::fill_rule::FillRule;
use crate::core::integer::OverlayInt;
use crate::core::relate::{PredicateOverlay, Relations};
use crate::core::relations::each_relation;
use crate::core::solver::Solver;
use crate::error::{answered, OverlayError};
use crate::float::grid::Grid;
use crate::float::scale::{fixed, fixed_grid, FixedScaleOverlayError};
use crate::i_float::float::compatible::FloatPointCompatible;
use crate::i_shape::source::resource::ShapeResource;
use ::core::marker::PhantomData;

/// Declares the calls, one for each relation: of a builder, and of two resources.
macro_rules! relations_of_floats {
    ($($(#[$doc:meta])* $name:ident, $exact:ident, $bit:literal;)*) => {
        /// Relations in one call, under the even-odd fill rule, on the finest grid of 61 bits.
        ///
        /// ```
        /// use polyover::float::relate::FloatRelate;
        ///
        /// let outer = [[0.0, 0.0], [0.0, 20.0], [20.0, 20.0], [20.0, 0.0]];
        /// let inner = [[5.0, 5.0], [5.0, 15.0], [15.0, 15.0], [15.0, 5.0]];
        /// assert!(inner.within(&outer) && !outer.touches(&inner));
        /// assert!(outer.try_relations(&inner)?.covers());
        /// # Ok::<(), polyover::error::OverlayError>(())
        /// ```
        pub trait FloatRelate<R, P>
        where
            R: ShapeResource<P> + ?Sized,
            P: FloatPointCompatible,
        {
            /// All relations at once, on a grid.
            ///
            /// # Errors
            /// As of [`PredicateOverlay::try_relations`]; `NotFinite`; `OutOfRange` where the grid does not have a
            /// coordinate.
            fn try_relations_on<I: OverlayInt>(&self, other: &R, grid: &Grid<I>) -> Result<Relations, OverlayError>;

            /// All relations at once, on the finest grid of 61 bits.
            ///
            /// # Errors
            /// As of [`Self::try_relations_on`].
            fn try_relations(&self, other: &R) -> Result<Relations, OverlayError>;

            /// All relations at once of the contours as that grid has them: no edge is moved.
            ///
            /// # Errors
            /// As of [`Self::try_relations_on`].
            fn try_exact_relations(&self, other: &R) -> Result<Relations, OverlayError>;

            $(
                $(#[$doc])*
                ///
                /// # Panics
                /// Where [`Self::try_relations`] is refused.
                #[track_caller]
                fn $name(&self, other: &R) -> bool;
            )*
        }

        impl<R0, R1, P> FloatRelate<R1, P> for R0
        where
            R0: ShapeResource<P> + ?Sized,
            R1: ShapeResource<P> + ?Sized,
            P: FloatPointCompatible,
        {
            fn try_relations_on<I: OverlayInt>(&self, other: &R1, grid: &Grid<I>) -> Result<Relations, OverlayError> {
                FloatPredicateOverlay::<P, I>::try_on(self, other, grid)?.try_relations()
            }

            fn try_relations(&self, other: &R1) -> Result<Relations, OverlayError> {
                FloatPredicateOverlay::<P>::try_from_subj_and_clip(self, other)?.try_relations()
            }

            fn try_exact_relations(&self, other: &R1) -> Result<Relations, OverlayError> {
                FloatPredicateOverlay::<P>::try_from_subj_and_clip(self, other)?.try_exact_relations()
            }

            $(
                fn $name(&self, other: &R1) -> bool {
                    answered(FloatPredicateOverlay::<P>::try_from_subj_and_clip(self, other)).$name()
                }
            )*
        }

        impl<P: FloatPointCompatible, I: OverlayInt> FloatPredicateOverlay<P, I> {$(
            $(#[$doc])*
            ///
            /// # Panics
            /// Where [`Self::try_relations`] is refused.
            #[track_caller]
            pub fn $name(&mut self) -> bool {
                answered(self.overlay.try_relation($bit, self.fill_rule, self.solver))
            }
        )*}
    };
}

each_relation!(relations_of_floats);

/// Contours of floats, to be asked how they lie to each other.
#[derive(Debug, Clone)]
pub struct FloatPredicateOverlay<P: FloatPointCompatible, I: OverlayInt = i64> {
    /// How edges are split.
    pub solver: Solver,
    /// Which windings count as filled: odd ones, unless another rule is set.
    pub fill_rule: FillRule,
    overlay: PredicateOverlay<I>,
    grid: Grid<I>,
    point: PhantomData<fn() -> P>,
}

impl<P: FloatPointCompatible> FloatPredicateOverlay<P> {
    /// A builder of these contours on the finest grid of 61 bits.
    ///
    /// # Panics
    /// Where [`Self::try_from_subj_and_clip`] is refused.
    #[track_caller]
    pub fn with_subj_and_clip<R0, R1>(subj: &R0, clip: &R1) -> Self
    where
        R0: ShapeResource<P> + ?Sized,
        R1: ShapeResource<P> + ?Sized,
    {
        answered(Self::try_from_subj_and_clip(subj, clip))
    }

    /// A builder of these contours on a grid of a fixed scale.
    ///
    /// # Errors
    /// Where the scale or a coordinate is refused.
    pub fn with_subj_and_clip_fixed_scale<R0, R1>(
        subj: &R0,
        clip: &R1,
        scale: P::Scalar,
    ) -> Result<Self, FixedScaleOverlayError>
    where
        R0: ShapeResource<P> + ?Sized,
        R1: ShapeResource<P> + ?Sized,
    {
        let grid = fixed_grid(subj, clip, scale)?;
        Self::try_on(subj, clip, &grid).map_err(fixed)
    }
}

impl<P: FloatPointCompatible, I: OverlayInt> FloatPredicateOverlay<P, I> {
    /// A builder of these contours on a grid.
    ///
    /// # Errors
    /// `Memory`; `NotFinite`; `OutOfRange` where a coordinate is out of the range of the grid.
    pub fn try_on<R0, R1>(subj: &R0, clip: &R1, grid: &Grid<I>) -> Result<Self, OverlayError>
    where
        R0: ShapeResource<P> + ?Sized,
        R1: ShapeResource<P> + ?Sized,
    {
        let mut overlay = PredicateOverlay::new(0);
        overlay.subject = grid.paths(subj)?;
        overlay.clip = grid.paths(clip)?;
        Ok(Self {
            solver: Solver::default(),
            fill_rule: FillRule::EvenOdd,
            overlay,
            grid: *grid,
            point: PhantomData,
        })
    }

    /// A builder of these contours on the finest grid.
    ///
    /// # Errors
    /// `Memory`; `NotFinite`; `OutOfRange` where a coordinate is too large a float.
    pub fn try_from_subj_and_clip<R0, R1>(subj: &R0, clip: &R1) -> Result<Self, OverlayError>
    where
        R0: ShapeResource<P> + ?Sized,
        R1: ShapeResource<P> + ?Sized,
    {
        Self::try_on(subj, clip, &Grid::finest(subj, clip)?)
    }

    /// All relations at once.
    ///
    /// # Errors
    /// As of [`PredicateOverlay::try_relations`].
    pub fn try_relations(&self) -> Result<Relations, OverlayError> {
        self.overlay.try_relations_with(self.fill_rule, self.solver)
    }

    /// All relations at once of the contours as the grid has them: no edge is moved, and `solver` plays no part.
    ///
    /// # Errors
    /// As of [`PredicateOverlay::try_relations`].
    pub fn try_exact_relations(&self) -> Result<Relations, OverlayError> {
        self.overlay.try_exact_relations_with(self.fill_rule)
    }

    /// The grid of the contours.
    pub fn grid(&self) -> &Grid<I> {
        &self.grid
    }
}
