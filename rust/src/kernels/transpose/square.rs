// rust/erase writes this file from crates/p3_util_kernels/src/transpose/square.rt. Make changes there.
//! Transposes a square of items in place, by quadrants.
//!
//! Each item above the diagonal is swapped once with its mirror image. A square of more than 8 rows is cut into
//! quadrants. The upper left one is transposed first. Then the upper right one is swapped with the lower left one
//! across the diagonal, and at last the lower right one is transposed. Blocks that are swapped across the diagonal are
//! halved until they are small.

use crate::kernels::bits::pow2;
use crate::kernels::places::{Places, Swaps};
#[cfg(target_pointer_width = "32")]
use crate::width::Index as usize;

/// A square of at most this many rows and columns is not cut.
const SMALL_SIDE: usize = 8;

/// A block of fewer items than this is not cut.
const SMALL_BLOCK: usize = 64;

/// Whether a list of `len` items holds a square of `s = 2^log_size` rows and columns.
///
/// The square begins at place `base`, and its rows begin `2^log_stride` places apart. No row may reach into the next
/// one, and the last place of the square must lie in the list. That place is computed without wrapping. This tests the
/// preconditions of [`transpose_square_on`].
#[inline]
#[must_use]
pub const fn fits_square(len: usize, base: usize, log_stride: usize, log_size: usize) -> bool {
    if log_stride >= 64 || log_size > log_stride {
        return false;
    }
    // The last place of the square is `last` rows below its first place and `last` columns to the right of it.
    let last = pow2(log_size) - 1;
    match last.checked_mul(pow2(log_stride) + 1) {
        Some(distance) => distance < len.saturating_sub(base),
        None => false,
    }
}

/// Transposes a square in place, by `s * (s - 1) / 2` swaps.
///
/// The square has `s = 2^log_size` rows and columns. It begins at place `base`, and its rows begin `2^log_stride`
/// places apart. All other places keep their items.
///
/// `log_size` must be at most `log_stride`, so that no row reaches into the next one, and `log_stride` must be below
/// 64. The list must hold the last place of the square, `base + (s - 1) * 2^log_stride + s - 1`. [`fits_square`] checks
/// all of this.
pub fn transpose_square_on<S: Places>(m: &mut Swaps<S>, base: usize, log_stride: usize, log_size: usize) {
    let _len = m.len();
    let square = Square { base, stride: pow2(log_stride) };
    let lines = Lines { start: 0, end: pow2(log_size) };
    transpose_square(m, square, lines);
}

/// A square in a list. The item in row `a` and column `b` is at place `base + a * stride + b`.
#[derive(Clone, Copy)]
struct Square {
    base: usize,
    stride: usize,
}

impl Square {
    /// The place of the item in row `a` and column `b`.
    fn place(self, a: usize, b: usize) -> usize {
        self.base + a * self.stride + b
    }
}

/// Consecutive rows or columns of a square: from `start` on, and below `end`.
#[derive(Clone, Copy)]
struct Lines {
    start: usize,
    end: usize,
}

impl Lines {
    /// The number of these rows or columns.
    fn len(self) -> usize {
        self.end - self.start
    }

    /// The first half, rounded down, and the rest.
    fn halves(self) -> (Lines, Lines) {
        let middle = self.start + (self.end - self.start) / 2;
        (Lines { start: self.start, end: middle }, Lines { start: middle, end: self.end })
    }
}

/// Transposes the part of `square` that has the rows and the columns of `lines`.
fn transpose_square<S: Places>(m: &mut Swaps<S>, square: Square, lines: Lines) {
    if lines.len() <= SMALL_SIDE {
        transpose_small(m, square, lines);
    } else {
        let (first, second) = lines.halves();
        transpose_square(m, square, first);
        swap_block(m, square, first, second);
        transpose_square(m, square, second);
    }
}

/// Does the same as [`transpose_square`], row by row.
fn transpose_small<S: Places>(m: &mut Swaps<S>, square: Square, lines: Lines) {
    for line in lines.start..lines.end {
        let before = Lines { start: lines.start, end: line };
        swap_line(m, square, before, line);
    }
}

/// Swaps a block above the diagonal, with the rows `rows` and the columns `cols`, with its mirror image below the
/// diagonal.
fn swap_block<S: Places>(m: &mut Swaps<S>, square: Square, rows: Lines, cols: Lines) {
    if rows.len() * cols.len() < SMALL_BLOCK {
        swap_small_block(m, square, rows, cols);
    } else if rows.len() > cols.len() {
        let (upper, lower) = rows.halves();
        swap_block(m, square, upper, cols);
        swap_block(m, square, lower, cols);
    } else {
        let (left, right) = cols.halves();
        swap_block(m, square, rows, left);
        swap_block(m, square, rows, right);
    }
}

/// Does the same as [`swap_block`], column by column.
fn swap_small_block<S: Places>(m: &mut Swaps<S>, square: Square, rows: Lines, cols: Lines) {
    for line in cols.start..cols.end {
        swap_line(m, square, rows, line);
    }
}

/// Swaps the items in the rows `rows` of column `line` with their mirror images in row `line`.
fn swap_line<S: Places>(m: &mut Swaps<S>, square: Square, rows: Lines, line: usize) {
    for i in rows.start..rows.end {
        m.swap(square.place(line, i), square.place(i, line));
    }
}
