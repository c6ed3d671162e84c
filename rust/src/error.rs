//! Why a call was refused.

use crate::ffi::{sys, text_of};
use ::core::fmt;

/// Why a call was refused. A refused call changes nothing.
#[derive(Debug, Clone, Copy, PartialEq, Eq, Hash)]
#[non_exhaustive]
pub enum OverlayError {
    /// Memory was refused.
    Memory,
    /// A coordinate is more than 2^62 - 1 away from 0. Of `i16` and `i32` coordinates all are taken.
    OutOfRange,
    /// A contour meets itself elsewhere than in its corners: the index, from 0, of the first one that does.
    NotResolved(usize),
    /// After 64 rounds of splitting edges still meet: of [`Solver::ROUNDS`](crate::core::solver::Solver::ROUNDS) alone.
    NotSettled,
    /// The edges weigh 2^31 or more.
    TooManyEdges,
    /// The edges of a subject, or those of a clip, do not make contours: more of them leave a point than come to it.
    NotClosed,
    /// A grid does not fit: a side of its cells is below 1, or more than 1,000 lines cross the contours in a direction.
    BadGrid,
    /// A float is not a number, or infinite.
    NotFinite,
    /// An option that this version has not yet: its name.
    NotHad(&'static str),
    /// A status that this version does not know.
    Other(u32),
}

impl OverlayError {
    /// The refusal for which a status of the library stands.
    pub(crate) fn of(status: sys::Status) -> Self {
        match status {
            sys::MEMORY => Self::Memory,
            sys::OUT_OF_RANGE => Self::OutOfRange,
            // (all other numbers of options are of types that have no others)
            sys::BAD_OPTION => Self::BadGrid,
            sys::NOT_SETTLED => Self::NotSettled,
            sys::TOO_MANY_EDGES => Self::TooManyEdges,
            other => Self::Other(other),
        }
    }
}

impl fmt::Display for OverlayError {
    fn fmt(&self, f: &mut fmt::Formatter<'_>) -> fmt::Result {
        f.write_str(match *self {
            Self::Memory => text_of(sys::MEMORY),
            Self::OutOfRange => text_of(sys::OUT_OF_RANGE),
            Self::NotResolved(contour) => return write!(f, "contour [{contour}]: {}", text_of(sys::NOT_RESOLVED)),
            Self::NotSettled => "edges still meet after 64 rounds of splitting; Solver::SNAPPED splits them",
            Self::TooManyEdges => text_of(sys::TOO_MANY_EDGES),
            Self::NotClosed => "the edges of the subject, or those of the clip, do not make contours",
            Self::BadGrid => "a grid does not fit: cells from 1 on, at most 1,000 lines in a direction",
            Self::NotFinite => "a float is not a number, or infinite",
            Self::NotHad(name) => return write!(f, "this version does not have the option {name}"),
            Self::Other(status) => text_of(status),
        })
    }
}

impl ::core::error::Error for OverlayError {}

/// The answer of a call with the signature of `i_overlay`: where its `try_` call is refused it panics, as `Vec` does
/// where it cannot grow.
#[track_caller]
#[allow(clippy::panic)]
pub(crate) fn answered<T>(answer: Result<T, OverlayError>) -> T {
    match answer {
        Ok(it) => it,
        Err(error) => panic!("polyover: {error}"),
    }
}
