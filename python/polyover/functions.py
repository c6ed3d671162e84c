"""The functions of the library for C (include/polyover.h), and what each takes."""

from __future__ import annotations

from ctypes import POINTER, c_size_t, c_uint32, c_void_p

from .structs import ClipOptions, Contours, EdgeList, ExactShape, Graph, Options, PreparedShape, Result, SliceOptions
from .structs import Traced

ARRAY = (c_void_p, c_size_t)
CONTOURS, RESULT, PREPARED, GRAPH = POINTER(Contours), POINTER(Result), POINTER(PreparedShape), POINTER(Graph)
EXACT, TRACED = POINTER(ExactShape), POINTER(Traced)
TWO = (c_uint32, c_uint32, CONTOURS, CONTOURS)
OVERLAY = (c_uint32, c_uint32, POINTER(Options), CONTOURS, CONTOURS)
FUNCTIONS = {
    "polyover_built": (),
    "polyover_in_range": ARRAY,
    "polyover_overlay_result": (*OVERLAY, RESULT),
    "polyover_simplify_result": (c_uint32, POINTER(Options), CONTOURS, RESULT),
    "polyover_hierarchy_result": (*OVERLAY, RESULT),
    "polyover_vectors_result": (*OVERLAY, RESULT),
    "polyover_edges_result": (*TWO, RESULT),
    "polyover_clip_result": (c_uint32, POINTER(ClipOptions), CONTOURS, CONTOURS, RESULT),
    "polyover_slice_result": (*TWO, RESULT),
    "polyover_slice_custom_result": (c_uint32, POINTER(SliceOptions), CONTOURS, CONTOURS, RESULT),
    "polyover_free": (RESULT,),
    "polyover_relate": (*TWO, POINTER(c_uint32)),
    "polyover_relate_one": (c_uint32, *TWO, POINTER(c_uint32)),
    "polyover_relate_exact": (c_uint32, CONTOURS, CONTOURS, POINTER(c_uint32)),
    "polyover_relate_one_exact": (*TWO, POINTER(c_uint32)),
    "polyover_resolved": (CONTOURS,),
    "polyover_locate": (CONTOURS, *ARRAY, *ARRAY, POINTER(c_size_t)),
    "polyover_prepare": (c_uint32, c_uint32, CONTOURS, PREPARED),
    "polyover_prepared_locate": (PREPARED, *ARRAY, *ARRAY),
    "polyover_prepared_free": (PREPARED,),
    "polyover_prepare_exact": (c_uint32, CONTOURS, EXACT),
    "polyover_exact_locate": (EXACT, *ARRAY, *ARRAY),
    "polyover_exact_free": (EXACT,),
    "polyover_arrange": (c_uint32, *TWO, GRAPH),
    "polyover_graph_overlay_result": (GRAPH, c_uint32, POINTER(Options), RESULT),
    "polyover_graph_hierarchy_result": (GRAPH, c_uint32, POINTER(Options), RESULT),
    "polyover_graph_edges_result": (GRAPH, RESULT),
    "polyover_graph_free": (GRAPH,),
    "polyover_trace": (c_uint32, c_uint32, c_uint32, POINTER(EdgeList), TRACED),
    "polyover_traced_free": (TRACED,),
}
FREES = {"polyover_free", *(f"polyover_{name}_free" for name in ("prepared", "exact", "graph", "traced"))}
# (of small calls, which take the addresses of structs and arrays)
FRAMED = {
    "polyover_resolved": (c_void_p,),
    "polyover_overlay": (c_uint32, c_uint32, *(c_void_p,) * 3, *(c_void_p, c_size_t) * 3, c_void_p),
    "polyover_relate_exact": (c_uint32, *(c_void_p,) * 3),
    "polyover_relate_one_exact": (c_uint32, c_uint32, *(c_void_p,) * 3),
}
