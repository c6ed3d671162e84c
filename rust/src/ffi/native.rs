//! The library without a C compiler: its assembly, and the functions that are C elsewhere (`c/heap.c`,
//! `c/library*.c`). `scripts/dist` leaves the assembly, in which the names of calls are those of `polyover.h`.

use super::sys;
use ::core::ffi::{c_char, c_int, c_void};
use ::core::hint::black_box;
use ::core::sync::atomic::{AtomicBool, Ordering};

#[cfg(target_arch = "x86_64")]
::core::arch::global_asm!(include_str!("../../native/x86_64/polyover.s"), options(att_syntax, raw));
#[cfg(target_arch = "aarch64")]
::core::arch::global_asm!(include_str!("../../native/aarch64/polyover.s"), options(raw));

#[link(name = "c")]
extern "C" {
    fn malloc(size: usize) -> *mut c_void;
    fn realloc(old: *mut c_void, size: usize) -> *mut c_void;
    fn free(at: *mut c_void);
    fn madvise(at: *mut c_void, size: usize, advice: c_int) -> c_int;
}

// ---- memory

/// Of a list for which freed memory is kept, its size in bytes.
const LARGE: usize = 1 << 15;
/// Of the block that is freed for that.
const KEPT: usize = (1 << 24) - (1 << 12);
/// Of a list for which large pages are asked.
const HUGE: usize = 1 << 22;
/// Of a small page.
const PAGE: usize = 1 << 12;
/// The advice to use large pages.
const MADV_HUGEPAGE: c_int = 14;

/// The answer to a request: whether there is memory, and a pointer that is never null.
#[repr(C)]
struct Taken {
    is_there: u64,
    at: *mut c_void,
}

static NOTHING: u8 = 0;

fn told(at: *mut c_void) -> Taken {
    if at.is_null() {
        let at = (&raw const NOTHING).cast_mut().cast();
        return Taken { is_there: 0, at };
    }
    Taken { is_there: 1, at }
}

/// Frees one block that nothing was written to, once. From then on glibc's malloc makes lists up to its size of memory
/// that it keeps, up to twice its size, where before it took each from the system and gave it back.
fn keep_freed() {
    static IS_DONE: AtomicBool = AtomicBool::new(false);
    if !IS_DONE.swap(true, Ordering::Relaxed) {
        // SAFETY: the block is freed once; null may be freed.
        unsafe { free(black_box(malloc(KEPT))) }
    }
}

/// Takes memory as malloc does, and asks for large pages where there is much.
fn taken(size: usize) -> *mut c_void {
    if size >= LARGE {
        keep_freed();
    }
    // SAFETY: any size may be asked for.
    let at = unsafe { malloc(size) };
    if !at.is_null() && size >= HUGE {
        let gap = at.cast::<u8>().align_offset(PAGE).min(PAGE);
        // SAFETY: the block has more bytes than the gap; where the system has no large pages, nothing changes.
        unsafe { madvise(at.wrapping_byte_add(gap), size.wrapping_sub(gap), MADV_HUGEPAGE) };
    }
    at
}

#[no_mangle]
extern "C" fn polyover_rattle_alloc(size: usize, align: usize) -> Taken {
    told(taken(if size == 0 { align } else { size }))
}

#[no_mangle]
unsafe extern "C" fn polyover_rattle_realloc(old: *mut c_void, _old_size: usize, size: usize, align: usize) -> Taken {
    // SAFETY: the library hands in what it took.
    told(unsafe { realloc(old, if size == 0 { align } else { size }) })
}

#[no_mangle]
unsafe extern "C" fn polyover_rattle_dealloc(at: *mut c_void) {
    // SAFETY: the library hands in what it took.
    unsafe { free(at) }
}

// ---- what is freed

/// Frees a list; a list without items has no memory.
///
/// # Safety
/// A list with items is a block of malloc, and is freed once.
unsafe fn free_list<T>(list: &sys::List<T>) {
    if list.count != 0 {
        // SAFETY: the caller's word.
        unsafe { free(list.at.cast_mut().cast()) }
    }
}

/// A struct with lists of the library.
trait Lists {
    /// Frees its lists.
    ///
    /// # Safety
    /// The library left the struct, and its lists are freed once.
    unsafe fn free_lists(&self);
}

/// Tells the lists of a struct.
macro_rules! lists {
    ($struct:ident $(<$c:ident>)?: $($list:ident),*) => {
        impl $(<$c>)? Lists for sys::$struct $(<$c>)? {
            unsafe fn free_lists(&self) {
                // SAFETY: the caller's word.
                unsafe { $(free_list(&self.$list);)* }
            }
        }
    };
}

lists!(Answer<C>: coordinates, contour_ends, shape_ends, links, fills);
lists!(Prepared: edges, blocks, groups);
lists!(Exact: edges, blocks, groups);
lists!(Graph: edges);
lists!(Traced<C>: coordinates, fills, source_ends, sources);

/// Makes calls that free the lists of a struct of the library, and leave all its fields 0.
macro_rules! frees {
    ($($name:ident($struct:ty);)*) => {
        $(
            #[no_mangle]
            unsafe extern "C" fn $name(at: *mut $struct) {
                // SAFETY: the caller's word.
                unsafe {
                    let it = &mut *at;
                    it.free_lists();
                    *it = ::core::mem::zeroed();
                }
            }
        )*
    };
}

frees! {
    polyover_free(sys::Answer<i64>);
    polyover_free_32(sys::Answer<i32>);
    polyover_prepared_free(sys::Prepared);
    polyover_prepared_free_32(sys::Prepared);
    polyover_exact_free(sys::Exact);
    polyover_exact_free_32(sys::Exact);
    polyover_graph_free(sys::Graph);
    polyover_graph_free_32(sys::Graph);
    polyover_traced_free(sys::Traced<i64>);
    polyover_traced_free_32(sys::Traced<i32>);
}

// ---- what it is made of

extern "C" {
    static polyover_is_proved: u8;
}

#[no_mangle]
extern "C" fn polyover_built() -> u32 {
    // SAFETY: the assembly has the constant.
    unsafe { polyover_is_proved }.into()
}

// ---- texts

#[no_mangle]
extern "C" fn polyover_status_text(status: u32) -> *const c_char {
    let text = match status {
        sys::OK => c"answered",
        sys::MEMORY => c"memory was refused",
        sys::OUT_OF_RANGE => c"a coordinate is out of the coordinate range",
        sys::NOT_RESOLVED => c"two steps of a contour share a point that is not an end of both",
        sys::NOT_SETTLED => c"edges still meet after 64 rounds of splitting; the solver POLYOVER_SNAPPED splits them",
        sys::TOO_MANY_EDGES => c"the edges weigh 2^31 or more",
        _ => c"no status has the number",
    };
    text.as_ptr()
}
