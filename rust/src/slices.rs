//! The calls on slices, whole and in parts. This file and `parts.rs` check the preconditions that the holders trust.
//! Nothing outside this folder can make a holder.
//!
//! It is proved that a kernel whose own precondition holds meets the preconditions of the steps of every holder. So
//! `holders.rs` and its folder, which have all the unsafe code, check no index without debug assertions. With the feature
//! `checked`, the holders of `checked.rs` are used instead, which check each one. Proved code chooses how a matrix is put, in
//! `kernels/calls.rs`. `instances.rs` has an instance of the kernels for each usual size of an item. With `checked` and on 32
//! bits, `by_type.rs` is used instead, which has none.
//!
//! With the feature `parallel`, `parallel.rs` runs long calls in parts. Otherwise `threads.rs` says that no call is cut.
//!
//! On a system of 32 bits, `narrow.rs` has the holders: those of the kernels, which check each index too.

use crate::kernels::bulk::Tiled;
use crate::kernels::reverse::fits_rows;
use crate::kernels::rows;
use crate::kernels::transpose::fits_matrix;
use crate::width::Index;
use holders::{SliceItems, SliceSource, WholeList};

#[cfg_attr(target_pointer_width = "32", path = "slices/narrow.rs")]
#[cfg_attr(all(feature = "checked", target_pointer_width = "64"), path = "slices/checked.rs")]
#[cfg_attr(not(feature = "checked"), allow(unsafe_code))]
mod holders;
#[cfg_attr(any(feature = "checked", target_pointer_width = "32"), path = "slices/by_type.rs")]
mod instances;
#[cfg(target_pointer_width = "64")]
pub mod parts;
#[cfg_attr(all(feature = "parallel", target_pointer_width = "64"), path = "slices/parallel.rs")]
mod threads;

/// Reverses the order of `vals` by index bits.
///
/// With 2^k items, index `i` gets the item from the index that has the k bits of `i` in reversed order.
///
/// ```
/// use p3_util_proved::reverse_slice_index_bits;
///
/// let mut list = ["000", "001", "010", "011", "100", "101", "110", "111"];
/// reverse_slice_index_bits(&mut list);
/// assert_eq!(list, ["000", "100", "010", "110", "001", "101", "011", "111"]);
/// ```
///
/// # Panics
///
/// If the length is neither zero nor a power of two:
///
/// ```should_panic
/// p3_util_proved::reverse_slice_index_bits(&mut [0, 1, 2, 3, 4, 5]);
/// ```
#[inline]
#[track_caller]
pub fn reverse_slice_index_bits<F: Send + Sync>(vals: &mut [F]) {
    if !fits_rows(vals.len() as Index, 1) {
        refuse_rows(vals.len(), 1);
    }
    if size_of::<F>() > 0 && !threads::reverse(vals, 1) {
        instances::reverse(WholeList::new(vals));
    }
}

/// Reverses the order of the rows of `vals` by index bits. Each row has `row_width` items.
///
/// With 2^k rows, the row at index `r` comes from the index that has the k bits of `r` in reversed order. With the feature
/// `parallel`, items must be `Send`.
///
/// ```
/// let mut rows = [0, 1, 10, 11, 20, 21, 30, 31];
/// p3_util_proved::reverse_slice_row_index_bits(&mut rows, 2);
/// assert_eq!(rows, [0, 1, 20, 21, 10, 11, 30, 31]);
/// ```
///
/// # Panics
///
/// If the length is not `row_width` times zero or a power of two. With a `row_width` of 0 the length must be 0.
#[inline]
#[track_caller]
pub fn reverse_slice_row_index_bits<#[cfg(not(feature = "parallel"))] F, #[cfg(feature = "parallel")] F: Send>(
    vals: &mut [F],
    row_width: usize,
) {
    if !fits_rows(vals.len() as Index, row_width as Index) {
        refuse_rows(vals.len(), row_width);
    }
    if size_of_val(vals) > 0 && !threads::reverse(vals, row_width) {
        instances::reverse_rows(WholeList::new(vals), row_width as Index);
    }
}

/// Transposes `input`, a matrix of `height` rows of `width` items, into `output`.
///
/// The item at `input[y * width + x]` goes to `output[x * height + y]`.
///
/// ```
/// use p3_util_proved::transpose::transpose;
///
/// // Two rows of three items become three rows of two.
/// let input = [1, 2, 3, 4, 5, 6];
/// let mut output = [0; 6];
/// transpose(&input, &mut output, 3, 2);
/// assert_eq!(output, [1, 4, 2, 5, 3, 6]);
/// ```
///
/// # Panics
///
/// If one of the lengths is not `width * height`, or if that product overflows:
///
/// ```should_panic
/// // The output has room for five items.
/// p3_util_proved::transpose::transpose(&[1, 2, 3, 4, 5, 6], &mut [0; 5], 3, 2);
/// ```
#[inline]
#[track_caller]
pub fn transpose<T: Copy + Send + Sync>(input: &[T], output: &mut [T], width: usize, height: usize) {
    let (rows, cols) = (height as Index, width as Index);
    if !fits_matrix(input.len() as Index, output.len() as Index, cols, rows) {
        crate::transpose::refuse(input.len(), output.len(), width, height);
    }
    if size_of::<T>() > 0 && !threads::transpose(input, output, width, height) {
        instances::transpose_whole(SliceItems::new(output), SliceSource::new(input), cols, rows);
    }
}

/// Reverses the order of items by index bits.
#[inline(never)]
fn reverse_holder(items: impl Tiled) {
    let _ = rows::reverse_rows(items, 1);
}

/// Reverses the order of rows by index bits. Not inlined, or `reverse_bytes` of `instances.rs` would save registers even where it
/// does not run this.
#[inline(never)]
fn reverse_rows_of_holder(items: impl Tiled, row_width: Index) {
    let _ = rows::reverse_rows(items, row_width);
}

#[cold]
#[inline(never)]
#[track_caller]
fn refuse_rows(len: usize, row_width: usize) -> ! {
    match row_width {
        0 => panic!("length {len} is not zero, and a row has no items"),
        1 => panic!("Not a power of two: {len} items"),
        _ => panic!("length {len} is not {row_width} times zero or a power of two"),
    }
}

#[cfg(test)]
mod tests;
