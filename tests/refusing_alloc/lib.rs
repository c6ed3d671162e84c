//! Memory that is refused, for the tests in other folders.

pub mod refusing;
