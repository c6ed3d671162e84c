//! Each growth refused in turn, at every public call that answers a `Result`.

// Makes a check at one coordinate type, in memory that may be refused. The type changes no request.
macro_rules! at_a_width {
    ($rt:expr, $check:ident) => {{
        let memory = refusing_alloc::refusing::Refusing::new($rt.alloc(), crate::refusals::PLENTY);
        let trial = crate::refusals::Trial {
            rt: &$rt,
            memory: &memory,
        };
        $check::<i64>(&trial)
    }};
}

// Makes a check at each coordinate type, since code of that type keeps and reads the state after a refusal.
macro_rules! at_each_width {
    ($rt:expr, $check:ident) => {{
        let memory = refusing_alloc::refusing::Refusing::new($rt.alloc(), crate::refusals::PLENTY);
        let trial = crate::refusals::Trial {
            rt: &$rt,
            memory: &memory,
        };
        $check::<i16>(&trial)?;
        $check::<i32>(&trial)?;
        $check::<i64>(&trial)
    }};
}

mod asked_first;
mod by_solver;
mod edges;
mod figures;
mod flat;
mod free_arranged;
mod free_exact;
mod free_extracted;
mod free_given;
mod free_located;
mod free_pairs;
mod limits;
mod one_call;
mod overlay_adders;
mod overlay_queries;
mod overlay_simplify;
mod overlay_views;
mod predicates;
mod refusals;
mod scans;
mod seen;
mod string_queries;
mod strings;
mod without_memory;
