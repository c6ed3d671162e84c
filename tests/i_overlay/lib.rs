//! Tests of `i_overlay`: the builder and its queries.

// Makes a check at each coordinate type.
macro_rules! each_wide {
    ($rt:expr, $check:ident) => {{
        $check::<i16>(&$rt, $rt.alloc())?;
        $check::<i32>(&$rt, $rt.alloc())?;
        $check::<i64>(&$rt, $rt.alloc())?;
        Ok(())
    }};
}

mod alone;
mod awkward;
mod bow;
mod builder;
mod builders;
mod contours;
mod deprecated;
mod edges;
mod failed;
mod hierarchy;
mod made;
mod many;
mod minimum;
mod names;
mod ogc;
mod one_call;
mod one_corner;
mod one_list;
mod paths;
mod reexports;
mod refused;
mod relations;
mod rows;
mod selected;
mod settings;
mod shape_vectors;
mod shapes;
mod simplified;
mod simplify;
mod snapped;
mod solvers;
mod squares;
mod trees;
mod turned;
mod unsettled;
mod viewed;
mod views;
mod wide;
