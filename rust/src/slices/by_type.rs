//! Kernels for each type of item, and none for each size: with the feature `checked` and on systems of 32 bits. Only `slices.rs`
//! and `parts.rs` use this file.

pub(super) use super::{reverse_holder as reverse, reverse_rows_of_holder as reverse_rows};
pub(super) use crate::kernels::calls::transpose_whole;
#[cfg(target_pointer_width = "64")]
pub(super) use crate::kernels::parts::transpose_part;
#[cfg(target_pointer_width = "64")]
use crate::kernels::{bulk, parts};

/// Makes the exchanges of a part, whose places are the items.
#[cfg(target_pointer_width = "64")]
pub(super) fn reverse_part(items: impl bulk::Tiled, _: usize, part: parts::Part<parts::ReversalPlan>) {
    let _ = parts::reverse_part(items, part);
}

/// An item is a place.
#[cfg(target_pointer_width = "64")]
pub(super) fn bytes_of_place(size: usize, _: usize) -> usize {
    size
}
