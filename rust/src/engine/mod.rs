//! What stands between the public calls and the library: lists of paths, options as numbers, types of coordinates, and
//! answers in lists.

pub(crate) mod closed;
pub(crate) mod lists;
pub(crate) mod options;
pub(crate) mod paths;
pub(crate) mod traced;
pub(crate) mod width;
