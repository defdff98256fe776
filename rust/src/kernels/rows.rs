// rust/erase writes this file from crates/p3_util_fast/src/rows.rt. Make changes there.
//! Bit reversal of the order of rows of any width. Each pair of rows whose indices are each other's reverse is
//! exchanged once. Single items are reversed as rows of one item.
//!
//! There are 2^k rows, and the index of a row has three parts. The high part has `half = k / 2` digits, and `x` stands
//! for its reverse. The part `middle` is one digit if k is odd, and empty otherwise. The low part `y` has `half`
//! digits. In the reversed index, `x` and `y` have changed places:
//!
//! ```text
//!     index      rev(x)  middle  y         k = 5, x = 01, middle = 1, y = 11:   10 1 11
//!     reversed   rev(y)  middle  x                                              11 1 01
//! ```
//!
//! So for each middle digit and all `x < y`, the row of `x` and `y` is exchanged with the row of `y` and `x`. This
//! reaches each pair of rows exactly once, so no loop has to test an index. All other rows stay where they are.
//!
//! The rows with the same middle digit form a [`Grid`]: the row of `x` and `y` is the place of row `x` and column `y`,
//! and is exchanged with the place of row `y` and column `x`.

use crate::kernels::bits::{log2_strict_usize, pow2};
use crate::kernels::bulk::Tiled;
use crate::kernels::grid::{Grid, exchange_square};
#[cfg(target_pointer_width = "32")]
use crate::width::Index as usize;

/// Rows of `width` items each, whose indices have `digits` binary digits: there are `2^digits` rows, or none.
#[derive(Clone, Copy)]
pub(crate) struct RowDigits {
    pub width: usize,
    pub digits: usize,
}

impl RowDigits {
    /// The rows of `width` items of a list of `len` items.
    #[inline(always)]
    pub(crate) fn of(len: usize, width: usize) -> Self {
        if len == 0 {
            return RowDigits { width, digits: 0 };
        }
        let digits = log2_strict_usize(len / width);
        RowDigits { width, digits }
    }

    /// The grid of the rows whose indices have the middle part `middle`.
    #[inline(always)]
    pub(crate) fn grid(self, middle: usize) -> Grid {
        let half = self.digits / 2;
        Grid { width: self.width, base: middle * pow2(half), stride: pow2(self.digits - half), digits: half }
    }
}

/// Reverses the order of rows of `row_width` items by index bits.
#[inline(always)]
pub(crate) fn reverse_rows<M: Tiled>(m: M, row_width: usize) -> M {
    let rows = RowDigits::of(m.len(), row_width);
    // In the cases with a fixed number of digits, the compiler unrolls the exchanges of all pairs. Each further case
    // would be one more copy of these exchanges. With too many copies, Rattle's compiler no longer inlines this
    // function.
    match rows.digits {
        2 => exchange_pairs(m, RowDigits { digits: 2, ..rows }, true),
        3 => exchange_pairs(m, RowDigits { digits: 3, ..rows }, true),
        4 => exchange_pairs(m, RowDigits { digits: 4, ..rows }, true),
        5 => exchange_pairs(m, RowDigits { digits: 5, ..rows }, true),
        _ => exchange_pairs_outlined(m, rows),
    }
}

/// Exchanges all pairs of rows whose indices are each other's reverse. In each grid this is done by quadrants or row by
/// row.
#[inline(always)]
fn exchange_pairs<M: Tiled>(m: M, rows: RowDigits, row_by_row: bool) -> M {
    if rows.digits < 2 {
        return m;
    }
    let half = rows.digits / 2;
    let mut m = m;
    for middle in 0..pow2(rows.digits - half - half) {
        m = exchange_square(m, rows.grid(middle), row_by_row);
    }
    m
}

/// Does the same as [`exchange_pairs`], by quadrants, in a function of its own. So a call with few rows needs no stack
/// frame, which would take longer than its exchanges.
#[inline(never)]
pub(crate) fn exchange_pairs_outlined<M: Tiled>(m: M, rows: RowDigits) -> M {
    exchange_pairs(m, rows, false)
}
