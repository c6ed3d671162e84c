//! The seven relations of a subject and a clip: what each tells, its names and its bit.

/// Hands the relations to a macro, a line for each: its name, its name of contours as they are, and its bit.
macro_rules! each_relation {
    ($declare:ident) => {
        $declare! {
            /// Tells whether some point is in both, edges included.
            intersects, intersects_exact, 1;
            /// Tells whether some point off the edges is in both.
            interiors_intersect, interiors_intersect_exact, 2;
            /// Tells whether they intersect, and their interiors do not.
            touches, touches_exact, 4;
            /// Tells whether they meet in single points alone.
            point_intersects, point_intersects_exact, 8;
            /// Tells whether the subject, which is asked, lies within the clip.
            within, within_exact, 16;
            /// Tells whether they do not intersect.
            disjoint, disjoint_exact, 32;
            /// Tells whether the clip lies within the subject, which is asked.
            covers, covers_exact, 64;
        }
    };
}

/// Declares what each bit says.
macro_rules! bits_of_relations {
    ($($(#[$doc:meta])* $name:ident, $exact:ident, $bit:literal;)*) => {
        impl Relations {$(
            $(#[$doc])*
            pub const fn $name(self) -> bool {
                self.bits & $bit != 0
            }
        )*}
    };
}

/// All relations of a subject and a clip.
#[derive(Debug, Clone, Copy, PartialEq, Eq, Hash)]
pub struct Relations {
    bits: u32,
}

impl Relations {
    /// The relations with these bits.
    pub(crate) const fn of(bits: u32) -> Self {
        Self { bits }
    }
}

each_relation!(bits_of_relations);

pub(crate) use each_relation;
