//! The calls on a `usize` of 32 bits, in place of those of `kernels::bits`, which are about numbers of 64 bits. `bits.rs` converts
//! the numbers of the strict logarithms itself.

use crate::kernels::bits as proved;
pub use proved::{assert_clone, branch_hint, indices_arr, log2_ceil_u64};

/// The logarithm of `n` to base 2, rounded up: the least `e` with `n <= 2^e`. It is 0 for 0 and 1.
#[inline]
#[must_use]
pub const fn log2_ceil_usize(n: usize) -> usize {
    proved::log2_ceil_usize(n as u64) as usize
}

/// The logarithm of `n` to base 2, rounded down: the greatest `e` with `2^e <= n`. It is 0 for 0.
#[inline]
#[must_use]
pub const fn log2_floor_usize(n: usize) -> usize {
    proved::log2_floor_usize(n as u64) as usize
}

/// `2^log_degree`, or `None` if it does not fit in a `usize`.
#[inline]
#[must_use]
pub const fn checked_pow2(log_degree: usize) -> Option<usize> {
    match proved::checked_pow2(log_degree as u64) {
        Some(power) if power <= usize::MAX as u64 => Some(power as usize),
        _ => None,
    }
}

/// `a + b` and `2^(a + b)`, or `None` if the power does not fit in a `usize`.
#[inline]
#[must_use]
pub const fn checked_log_size_sum(a: usize, b: usize) -> Option<(usize, usize)> {
    match proved::checked_log_size_sum(a as u64, b as u64) {
        Some((sum, power)) if power <= usize::MAX as u64 => Some((sum as usize, power as usize)),
        _ => None,
    }
}

/// The proved functions reverse all 64 digits if they are asked for none. Here all digits are 32, so they are asked for 1 to 32.
pub(crate) const fn reverse_bits(x: usize, n: usize) -> usize {
    let n = if n.trailing_zeros() % 32 == 0 { 1 << 32 } else { n as u64 };
    proved::reverse_bits(x as u64, n) as usize
}

/// A remainder of 0 stands for all 32 digits.
pub(crate) const fn reverse_bits_len(x: usize, bit_len: usize) -> usize {
    proved::reverse_bits_len(x as u64, (bit_len as u64 + 31) % 32 + 1) as usize
}
