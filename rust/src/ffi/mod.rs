//! The library behind the crate: all `unsafe` of the crate is in this module. Outside it the calls are safe functions,
//! from borrowed lists ([`Given`]) to owned answers ([`Held`], [`Ready`], [`Graph`]).
#![allow(unsafe_code)]

mod calls;
mod given;
mod graph;
mod held;
#[cfg(polyover_native)]
mod native;
mod owned;
mod ready;
pub(crate) mod sys;
mod traced;
mod width;

pub(crate) use calls::{is_proved, text_of, Engine};
pub(crate) use given::{coordinates_of, Given};
pub(crate) use graph::Graph;
pub(crate) use held::Held;
pub(crate) use ready::{Prepared, Raw, Ready};
pub(crate) use sys::Source;
pub(crate) use width::{Narrow, Wide};
