// rust/erase writes this file from crates/p3_util_kernels/src/reverse/long.rt. Make changes there.
//! The long path of bit reversal, in three passes: chunks, squares, and chunks again.
//!
//! A list of `2^k` items is seen as `2^half` rows of `2^c` items, with `half = k / 2` and `c = k - half`. These rows
//! are the chunks. Since `c` is `half` or `half + 1`, the rows form one square, or two squares side by side. So the
//! bits of an index are those of its row, then one bit for its square if there are two, and then those of its column.
//!
//! The first pass reverses the order of the chunks by index bits, and so reverses the bits of the row. The second pass
//! transposes each square, so the bits of the row and those of the column change places. The third pass does the same
//! as the first one, and so reverses the bits that were those of the column.
//!
//! [`reverse_index_bits_long`](crate::kernels::reverse::reverse_index_bits_long) makes the three passes. This module has the
//! second one. The other two reverse the order of rows, as the short path does.

use crate::kernels::bits::pow2;
use crate::kernels::places::{Places, Swaps};
use crate::kernels::transpose::transpose_square_on;
#[cfg(target_pointer_width = "32")]
use crate::width::Index as usize;

/// Transposes the squares that lie side by side in `m`. The list is `2^log_size` rows of `2^log_stride` items. So there
/// is one square if the two numbers are equal, and there are two if `log_stride` is one more than `log_size`. A list of
/// n items takes at most n/2 swaps.
pub(crate) fn transpose_squares_on<S: Places>(m: &mut Swaps<S>, log_stride: usize, log_size: usize) {
    transpose_square_on(m, 0, log_stride, log_size);
    if log_stride > log_size {
        transpose_square_on(m, pow2(log_size), log_stride, log_size);
    }
}
