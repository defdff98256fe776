// rust/erase writes this file from crates/p3_util_kernels/src/reverse.rt. Make changes there.
//! Bit reversal of lists: item `i` moves to the index whose binary digits are those of `i` in reversed order.
//!
//! The rows of a list can be reordered in the same way, by the index of each row. The items within a row then keep
//! their order.
//!
//! There are two paths. The *short path* swaps each pair of items, or of rows, whose indices are each other's reverse.
//! The *long path* makes three passes over chunks and squares, and more swaps. Rows are always reversed by the short
//! path. A list of single items takes the short path for up to 8192 items, and the long path for more. A call on a
//! slice is the call whose name ends in `_on`, over a counter that starts at 0.
//!
//! It is proved that each call leaves the list in bit-reversed order (`IsReversal`, `IsRowReversal`). For the calls
//! that are given a counter, the exact number of swaps is proved too. The order of the swaps is only tested.

#[cfg(target_pointer_width = "32")]
use crate::width::Index as usize;

mod long;
mod rows;

use crate::kernels::bits::{log2_strict_usize, pow2};
use crate::kernels::places::{Places, SlicePlaces, Swaps};
use long::transpose_squares_on;
pub(crate) use rows::REVERSED_SIX;
use rows::swap_rows;

/// A list of at most this many items takes the short path, and a longer one the long path.
const SHORT_PATH_ITEMS: usize = 8192;

/// Whether `len` items can be cut into rows of `row_width` items so that the number of rows is zero or a power of two.
///
/// With a `row_width` of 1 this says whether `len` is zero or a power of two. With a `row_width` of 0 it says whether
/// `len` is zero.
#[inline]
#[must_use]
pub const fn fits_rows(len: usize, row_width: usize) -> bool {
    if row_width == 0 {
        return len == 0;
    }
    len == 0 || (len % row_width == 0 && (len / row_width).is_power_of_two())
}

/// Reverses the order of `vals` by index bits, and does not check the length: it must be zero or a power of two, which
/// `fits_rows(vals.len(), 1)` or std's `is_power_of_two` checks.
///
/// With 2^k items, index `i` gets the item from the index that has the k bits of `i` in reversed order. A second call
/// restores the original order. No item is cloned or dropped.
#[allow(dead_code)]
pub(crate) fn reverse_slice_index_bits<F>(vals: &mut [F]) {
    on_fresh_counter(&mut SlicePlaces::new(vals));
}

/// Reverses the order of the rows of `vals` by index bits, and does not check the length: the rows must have
/// `row_width` items each, and their number must be zero or a power of two, which `fits_rows(vals.len(), row_width)`
/// checks.
///
/// With 2^k rows, the row at index `r` comes from the index that has the k bits of `r` in reversed order. A second call
/// restores the original order. No item is cloned or dropped.
#[allow(dead_code)]
pub(crate) fn reverse_slice_row_index_bits<F>(vals: &mut [F], row_width: usize) {
    rows_on_fresh_counter(&mut SlicePlaces::new(vals), row_width);
}

/// Reverses `m` by index bits, as [`reverse_slice_index_bits`] does: by the short path up to 8192 items, and by the
/// long one if there are more.
///
/// A list of n items takes at most 3n/2 swaps. The length must be zero or a power of two, which `fits_rows(m.len(), 1)`
/// checks.
pub fn reverse_index_bits_on<S: Places>(m: &mut Swaps<S>) {
    if m.len() <= SHORT_PATH_ITEMS {
        reverse_index_bits_short(m);
    } else {
        reverse_index_bits_long(m);
    }
}

/// Reverses `m` by index bits, as [`reverse_slice_index_bits`] does.
///
/// Each pair of items whose indices are each other's reverse is swapped once. The length must be zero or a power of
/// two, which `fits_rows(m.len(), 1)` checks.
pub fn reverse_index_bits_short<S: Places>(m: &mut Swaps<S>) {
    reverse_row_index_bits_on(m, 1);
}

/// Reverses `m` by index bits, as [`reverse_slice_index_bits`] does, in three passes over chunks and squares.
///
/// A list of n items takes at most 3n/2 swaps, while [`reverse_index_bits_short`] takes at most n/2. The length must be
/// at least 4, and a power of two, which std's `is_power_of_two` checks.
pub fn reverse_index_bits_long<S: Places>(m: &mut Swaps<S>) {
    let digits = log2_strict_usize(m.len());
    let half = digits / 2;
    reverse_chunks_on(m, half, digits - half);
    transpose_squares_on(m, digits - half, half);
    reverse_chunks_on(m, half, digits - half);
}

/// Reverses the order of the rows of `m` by index bits.
///
/// Each row has `row_width` items. With 2^k rows, the row at index `r` comes from the index that has the k bits of `r`
/// in reversed order. The number of rows must be zero or a power of two, which [`fits_rows`] checks.
pub fn reverse_row_index_bits_on<S: Places>(m: &mut Swaps<S>, row_width: usize) {
    let len = m.len();
    if len == 0 {
        return;
    }
    swap_rows(m, row_width, log2_strict_usize(len / row_width));
}

/// Reverses the order of chunks by index bits.
///
/// There are `2^h` chunks of `2^c` items, where h is `lb_num_chunks` and c is `lb_chunk_size`. Place `i` gets the item
/// from place `rev(h, i / 2^c) * 2^c + i mod 2^c`, where `rev(h, x)` has the h bits of x in reversed order. A list of n
/// items takes at most n/2 swaps. The length must be `2^(h + c)`. To check the length, compare it with the power that
/// [`checked_log_size_sum`](crate::kernels::bits::checked_log_size_sum) returns for the two exponents.
pub fn reverse_chunks_on<S: Places>(m: &mut Swaps<S>, lb_num_chunks: usize, lb_chunk_size: usize) {
    let _len = m.len();
    swap_rows(m, pow2(lb_chunk_size), lb_num_chunks);
}

/// Reverses the items of a holder by index bits, by a counter that starts at 0.
fn on_fresh_counter<S: Places>(places: &mut S) {
    let mut m = Swaps::new(places);
    reverse_index_bits_on(&mut m);
}

/// Reverses the rows of a holder by index bits, by a counter that starts at 0.
fn rows_on_fresh_counter<S: Places>(places: &mut S, row_width: usize) {
    let mut m = Swaps::new(places);
    reverse_row_index_bits_on(&mut m, row_width);
}
