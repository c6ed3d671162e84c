//! Structs of the library whose memory is freed with them.

use super::calls::done;
use super::sys;
use super::width::Width;
use crate::error::OverlayError;
use ::core::marker::PhantomData;
use ::core::mem::MaybeUninit;
use ::core::slice;

/// A struct of the library with memory of its own.
///
/// # Safety
/// Fields that are all 0 make one without memory. Its arrays are blocks of malloc, which other threads may read and
/// free. The call takes any that the library left at the width.
pub(crate) unsafe trait Freed<W: Width>: Sized {
    /// The call that gives its memory back, and leaves all fields 0.
    const FREE: sys::Free<Self>;
}

/// A struct of the library, whose memory is freed with it.
pub(crate) struct Owned<W: Width, R: Freed<W>> {
    pub(super) raw: R,
    width: PhantomData<fn() -> W>,
}

// SAFETY: another thread may read and free its arrays (`Freed`). Nothing is changed through a shared reference.
unsafe impl<W: Width, R: Freed<W>> Send for Owned<W, R> {}
// SAFETY: as above.
unsafe impl<W: Width, R: Freed<W>> Sync for Owned<W, R> {}

impl<W: Width, R: Freed<W>> Drop for Owned<W, R> {
    fn drop(&mut self) {
        // SAFETY: the library left the struct (`of`).
        unsafe { R::FREE(&mut self.raw) }
    }
}

impl<W: Width, R: Freed<W>> Owned<W, R> {
    /// The struct that a call writes, unless it is refused.
    ///
    /// # Safety
    /// `call` writes a struct of the library to the pointer, and gives back the status with which it ended.
    pub(super) unsafe fn of(call: impl FnOnce(*mut R) -> sys::Status) -> Result<Self, OverlayError> {
        let mut raw = MaybeUninit::zeroed();
        let status = call(raw.as_mut_ptr());
        // SAFETY: all its fields were set to 0, which is one without memory (`Freed`), and one is there after each
        // status (polyover.h).
        let raw = unsafe { raw.assume_init() };
        let width = PhantomData;
        let owned = Self { raw, width };
        done(status).map(|()| owned)
    }
}

/// The items of a list of such a struct.
///
/// # Safety
/// Where the count is not 0, they are initialized and stay for as long as the struct.
pub(super) unsafe fn items<T>(list: &sys::List<T>) -> &[T] {
    if list.count == 0 {
        return &[];
    }
    // SAFETY: the caller's word; an array of the library is aligned and smaller than `isize::MAX` bytes.
    unsafe { slice::from_raw_parts(list.at, list.count) }
}
