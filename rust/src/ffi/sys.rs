//! Structs and calls of `include/polyover.h`, as Rust sees them.

use ::core::ffi::c_char;

pub(crate) type Status = u32;

pub(crate) const OK: Status = 0;
pub(crate) const MEMORY: Status = 1;
pub(crate) const OUT_OF_RANGE: Status = 3;
pub(crate) const NOT_RESOLVED: Status = 4;
pub(crate) const BAD_OPTION: Status = 7;
pub(crate) const NOT_SETTLED: Status = 8;
pub(crate) const TOO_MANY_EDGES: Status = 9;

/// `POLYOVER_PROVED`.
pub(crate) const PROVED: u32 = 1;

/// An array, and how many items it has: two fields of `polyover.h`, one behind the other.
#[repr(C)]
pub(crate) struct List<T> {
    pub(crate) at: *const T,
    pub(crate) count: usize,
}

impl<T> List<T> {
    /// The items of a slice: of use for as long as these.
    pub(crate) fn of(items: &[T]) -> Self {
        let (at, count) = (items.as_ptr(), items.len());
        Self { at, count }
    }
}

/// `polyover_contours` and `polyover_paths`, of coordinates of one width.
#[repr(C)]
pub(crate) struct Contours<C> {
    pub(crate) coordinates: List<C>,
    pub(crate) ends: List<usize>,
}

/// An area of 128 bits: `min_area_high` and `min_area_low`.
#[repr(C)]
pub(crate) struct WideArea {
    pub(crate) high: u64,
    pub(crate) low: u64,
}

/// `polyover_options`, with areas of one width.
#[repr(C)]
pub(crate) struct Options<A> {
    pub(crate) direction: u32,
    pub(crate) keep: u32,
    pub(crate) touching: u32,
    pub(crate) solver: u32,
    pub(crate) min_area: A,
}

/// `polyover_slice_options`, with areas of one width.
#[repr(C)]
pub(crate) struct SliceOptions<A> {
    pub(crate) direction: u32,
    pub(crate) solver: u32,
    pub(crate) min_area: A,
}

/// `polyover_clip_options`.
#[repr(C)]
pub(crate) struct ClipOptions {
    pub(crate) invert: u32,
    pub(crate) boundary: u32,
    pub(crate) solver: u32,
}

/// `polyover_link`.
#[repr(C)]
#[derive(Debug, Clone, Copy)]
pub(crate) struct Link {
    pub(crate) parent_shape: usize,
    pub(crate) parent_contour: usize,
    pub(crate) child_shape: usize,
}

/// `polyover_result`, of coordinates of one width.
#[repr(C)]
pub(crate) struct Answer<C> {
    pub(crate) coordinates: List<C>,
    pub(crate) contour_ends: List<usize>,
    pub(crate) shape_ends: List<usize>,
    pub(crate) links: List<Link>,
    pub(crate) fills: List<u8>,
}

/// `polyover_prepared`, the same at both widths.
#[repr(C)]
pub(crate) struct Prepared {
    pub(crate) edges: List<u8>,
    pub(crate) blocks: List<u8>,
    pub(crate) groups: List<u8>,
}

/// `polyover_exact`, the same at both widths.
#[repr(C)]
pub(crate) struct Exact {
    pub(crate) edges: List<u8>,
    pub(crate) blocks: List<u8>,
    pub(crate) groups: List<u8>,
    pub(crate) fill: u32,
}

/// `polyover_graph`, the same at both widths.
#[repr(C)]
pub(crate) struct Graph {
    pub(crate) edges: List<u8>,
    pub(crate) fill: u32,
    pub(crate) solver: u32,
    pub(crate) keep_given: u32,
}

/// `polyover_edge_list`, of coordinates of one width.
#[repr(C)]
pub(crate) struct EdgeList<C> {
    pub(crate) coordinates: List<C>,
    pub(crate) sides: List<u8>,
}

/// `polyover_source`.
#[repr(C)]
#[derive(Debug, Clone, Copy)]
pub(crate) struct Source {
    /// The number of a given edge, from 0.
    pub(crate) edge: usize,
    pub(crate) cut: u8,
    pub(crate) reversed: u8,
}

/// `polyover_traced`, of coordinates of one width.
#[repr(C)]
pub(crate) struct Traced<C> {
    pub(crate) coordinates: List<C>,
    pub(crate) fills: List<u8>,
    pub(crate) source_ends: List<usize>,
    pub(crate) sources: List<Source>,
}

/// A call that writes where points lie in a shape that is made ready.
pub(crate) type Locate<Shape, C> = unsafe extern "C" fn(*const Shape, *const C, usize, *mut u8, usize) -> Status;

/// A call that gives memory back, and leaves a struct of zeros.
pub(crate) type Free<Held> = unsafe extern "C" fn(*mut Held);

/// Declares calls once, for both widths: with coordinates `C` and areas `A`. Each has its name in `polyover.h`, which
/// at 32 bits ends in `_32`.
macro_rules! calls {
    (@table $($name:ident = $text:literal($($argument:ident: $type:ty),*) $(-> $status:ty)?;)*) => {
        /// The calls at a width.
        pub(crate) struct Calls<C, A> {
            $(pub(crate) $name: unsafe extern "C" fn($($argument: $type),*) $(-> $status)?,)*
        }
    };
    (@width $width:ident, $c:ty, $a:ty, $suffix:literal;
        $($name:ident = $text:literal($($argument:ident: $type:ty),*) $(-> $status:ty)?;)*) => {
        /// The calls at this width.
        pub(super) mod $width {
            use super::*;

            type C = $c;
            type A = $a;

            extern "C" {
                $(
                    #[link_name = concat!($text, $suffix)]
                    fn $name($($argument: $type),*) $(-> $status)?;
                )*
            }

            pub(crate) const CALLS: Calls<C, A> = Calls { $($name),* };
        }
    };
    ($($calls:tt)*) => {
        calls!(@table $($calls)*);
        calls!(@width wide, i64, WideArea, ""; $($calls)*);
        calls!(@width narrow, i32, u64, "_32"; $($calls)*);
    };
}

calls! {
    overlay = "polyover_overlay_result"(rule: u32, fill: u32, options: *const Options<A>, subject: *const Contours<C>,
        clip: *const Contours<C>, result: *mut Answer<C>) -> Status;
    hierarchy = "polyover_hierarchy_result"(rule: u32, fill: u32, options: *const Options<A>,
        subject: *const Contours<C>, clip: *const Contours<C>, result: *mut Answer<C>) -> Status;
    vectors = "polyover_vectors_result"(rule: u32, fill: u32, options: *const Options<A>, subject: *const Contours<C>,
        clip: *const Contours<C>, result: *mut Answer<C>) -> Status;
    simplify = "polyover_simplify_result"(fill: u32, options: *const Options<A>, contours: *const Contours<C>,
        result: *mut Answer<C>) -> Status;
    simplify_shape = "polyover_simplify_shape_result"(fill: u32, options: *const Options<A>,
        contours: *const Contours<C>, result: *mut Answer<C>, as_given: *mut u32) -> Status;
    slice_custom = "polyover_slice_custom_result"(fill: u32, options: *const SliceOptions<A>,
        subject: *const Contours<C>, lines: *const Contours<C>, result: *mut Answer<C>) -> Status;
    slice = "polyover_slice_result"(fill: u32, solver: u32, subject: *const Contours<C>, lines: *const Contours<C>,
        result: *mut Answer<C>) -> Status;
    tiles = "polyover_tiles_result"(fill: u32, solver: u32, subject: *const Contours<C>, width: C, height: C,
        result: *mut Answer<C>) -> Status;
    clip = "polyover_clip_result"(fill: u32, options: *const ClipOptions, shape: *const Contours<C>,
        lines: *const Contours<C>, result: *mut Answer<C>) -> Status;
    edges = "polyover_edges_result"(fill: u32, solver: u32, subject: *const Contours<C>, clip: *const Contours<C>,
        result: *mut Answer<C>) -> Status;
    relate = "polyover_relate"(fill: u32, solver: u32, subject: *const Contours<C>, clip: *const Contours<C>,
        relations: *mut u32) -> Status;
    relate_one = "polyover_relate_one"(relation: u32, fill: u32, solver: u32, subject: *const Contours<C>,
        clip: *const Contours<C>, holds: *mut u32) -> Status;
    relate_exact = "polyover_relate_exact"(fill: u32, subject: *const Contours<C>, clip: *const Contours<C>,
        relations: *mut u32) -> Status;
    relate_one_exact = "polyover_relate_one_exact"(relation: u32, fill: u32, subject: *const Contours<C>,
        clip: *const Contours<C>, holds: *mut u32) -> Status;
    locate = "polyover_locate"(shape: *const Contours<C>, coordinates: *const C, coordinate_count: usize,
        locations: *mut u8, location_room: usize, unresolved: *mut usize) -> Status;
    prepare = "polyover_prepare"(fill: u32, solver: u32, contours: *const Contours<C>,
        prepared: *mut Prepared) -> Status;
    prepared_locate = "polyover_prepared_locate"(prepared: *const Prepared, coordinates: *const C,
        coordinate_count: usize, locations: *mut u8, location_room: usize) -> Status;
    prepare_exact = "polyover_prepare_exact"(fill: u32, contours: *const Contours<C>, shape: *mut Exact) -> Status;
    exact_locate = "polyover_exact_locate"(shape: *const Exact, coordinates: *const C, coordinate_count: usize,
        locations: *mut u8, location_room: usize) -> Status;
    arrange = "polyover_arrange"(fill: u32, solver: u32, keep_given: u32, subject: *const Contours<C>,
        clip: *const Contours<C>, graph: *mut Graph) -> Status;
    graph_overlay = "polyover_graph_overlay_result"(graph: *const Graph, rule: u32, options: *const Options<A>,
        result: *mut Answer<C>) -> Status;
    graph_hierarchy = "polyover_graph_hierarchy_result"(graph: *const Graph, rule: u32, options: *const Options<A>,
        result: *mut Answer<C>) -> Status;
    graph_edges = "polyover_graph_edges_result"(graph: *const Graph, result: *mut Answer<C>) -> Status;
    trace = "polyover_trace"(rule: u32, fill: u32, solver: u32, edges: *const EdgeList<C>,
        traced: *mut Traced<C>) -> Status;
    free = "polyover_free"(result: *mut Answer<C>);
    prepared_free = "polyover_prepared_free"(prepared: *mut Prepared);
    exact_free = "polyover_exact_free"(shape: *mut Exact);
    graph_free = "polyover_graph_free"(graph: *mut Graph);
    traced_free = "polyover_traced_free"(traced: *mut Traced<C>);
}

extern "C" {
    pub(crate) fn polyover_status_text(status: Status) -> *const c_char;
    pub(crate) fn polyover_built() -> u32;
}
