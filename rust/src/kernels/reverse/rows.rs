// rust/erase writes this file from crates/p3_util_kernels/src/reverse/rows.rt. Make changes there.
//! The short path of bit reversal, for rows of any width. Single items are rows of one item, and chunks are rows too.
//!
//! Each pair of rows whose indices are each other's reverse is swapped once, item by item. All other rows stay where
//! they are.

use crate::kernels::bits::pow2;
use crate::kernels::places::{Places, Swaps};
#[cfg(target_pointer_width = "32")]
use crate::width::Index as usize;

/// Entry `i` has the six binary digits of `i` in reversed order.
pub(crate) const REVERSED_SIX: [u8; 64] = [
    0, 32, 16, 48, 8, 40, 24, 56, 4, 36, 20, 52, 12, 44, 28, 60, 2, 34, 18, 50, 10, 42, 26, 58, 6, 38, 22, 54, 14, 46,
    30, 62, 1, 33, 17, 49, 9, 41, 25, 57, 5, 37, 21, 53, 13, 45, 29, 61, 3, 35, 19, 51, 11, 43, 27, 59, 7, 39, 23, 55,
    15, 47, 31, 63,
];

/// Reverses the `digits` binary digits of `x`. Up to six digits are read from the table. If there are more, the table
/// has the six lowest, and another call reverses the others.
fn reversed_index(x: usize, digits: usize) -> usize {
    if digits <= 6 {
        return usize::from(REVERSED_SIX[x as core::primitive::usize]) >> (6 - digits);
    }
    let high = reversed_index(x / 64, digits - 6);
    (usize::from(REVERSED_SIX[(x % 64) as core::primitive::usize]) << (digits - 6)) + high
}

/// Swaps the `len` items from place `i` on with those from place `j` on, in order.
fn swap_runs<S: Places>(m: &mut Swaps<S>, i: usize, j: usize, len: usize) {
    for t in 0..len {
        m.swap(i + t, j + t);
    }
}

/// Reverses the order of `2^digits` rows of `width` items by index bits.
pub(crate) fn swap_rows<S: Places>(m: &mut Swaps<S>, width: usize, digits: usize) {
    for r in 0..pow2(digits) {
        let partner = reversed_index(r, digits);
        if r < partner {
            swap_runs(m, r * width, partner * width, width);
        }
    }
}
