//! Tests of `overlay_relate`: where points lie in contours and shapes, and builders for predicates.

mod again;
mod asked;
mod borders;
mod built;
mod early;
mod many;
mod predicates;
mod prepared;
mod relations;
mod resolved;
mod rows;
mod saw;
mod turned;
