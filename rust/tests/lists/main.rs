//! Compares the calls on slices, whole and in parts, with their definitions.

#[path = "../package/common.rs"]
mod common;
mod items;
#[cfg(target_pointer_width = "64")]
mod parts;
#[path = "../package/refusal.rs"]
mod refusal;
mod shapes;
#[cfg(target_pointer_width = "64")]
mod unwritten;
