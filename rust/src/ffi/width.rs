//! The widths at which the library computes.

use super::graph::{Arranged, Graph};
use super::held::Held;
use super::ready::{Prepared, Raw, Ready};
use super::sys;
use crate::core::answer::Either;
use crate::engine::options::Area;

/// A width at which the library computes.
pub(crate) trait Width: 'static + Sized {
    /// Its coordinates.
    type C: Copy + Ord + Default + Into<i64>;
    /// Its areas.
    type A: Area;

    /// The calls of the library.
    const CALLS: sys::Calls<Self::C, Self::A>;
    /// The end of the coordinate range.
    const END: Self::C;

    /// An answer as one of either width.
    fn either(held: Held<Self>) -> Either;

    /// A shape that is made ready as one of either width.
    fn prepared<R: Raw<Self> + Raw<Narrow> + Raw<Wide>>(ready: Ready<Self, R>) -> Prepared<R>;

    /// A graph as one of either width.
    fn graph(arranged: Arranged<Self>) -> Graph;
}

macro_rules! width {
    ($name:ident, $c:ty, $a:ty, $calls:ident) => {
        impl Width for $name {
            type C = $c;
            type A = $a;

            const CALLS: sys::Calls<$c, $a> = sys::$calls::CALLS;
            const END: $c = <$c>::MAX >> 1;

            fn either(held: Held<Self>) -> Either {
                Either::$name(held)
            }

            fn prepared<R: Raw<Narrow> + Raw<Wide>>(ready: Ready<Self, R>) -> Prepared<R> {
                Prepared::$name(ready)
            }

            fn graph(arranged: Arranged<Self>) -> Graph {
                Graph::$name(arranged)
            }
        }
    };
}

/// At 64 bits.
pub(crate) struct Wide;
/// At 32 bits.
pub(crate) struct Narrow;

width!(Wide, i64, sys::WideArea, wide);
width!(Narrow, i32, u64, narrow);
