//! Counts of edges.

/// Counts of a subject and of a clip.
pub mod boolean {
    /// How often the subject, and the clip, pass an edge from its smaller to its larger end, less how often they pass
    /// it back.
    #[derive(Debug, Clone, Copy, PartialEq, Eq, Hash)]
    pub struct ShapeCountBoolean {
        /// The count of the subject.
        pub subj: i32,
        /// The count of the clip.
        pub clip: i32,
    }
}
