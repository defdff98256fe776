//! Compares what does not depend on the feature `checked` with its definitions, and with the answers of the original:
//! the calls on numbers and iterators, the map, and the panics of all calls.

#![allow(clippy::type_complexity, reason = "tables of cases")]

mod common;
mod iterators;
mod map;
mod originals;
mod panics;
mod refusal;
mod words;
