//! The calls on integers that check a condition and then call the proved function.

use crate::kernels::bits;
use crate::width::Index;

// The same functions on a `usize` of this system.
#[cfg(target_pointer_width = "64")]
pub use crate::kernels::bits as proved;
#[cfg(target_pointer_width = "32")]
#[path = "bits/narrow.rs"]
pub mod proved;

/// The logarithm to base 2 of a power of two.
///
/// The compiler can tell that `1 << log2_strict_usize(n)` is `n`, so `&v[..1 << log2_strict_usize(v.len())]` needs no
/// bounds check.
///
/// ```
/// assert_eq!(p3_util_proved::log2_strict_usize(8), 3);
/// ```
///
/// # Panics
///
/// If `n` is not a power of two.
#[inline]
#[must_use]
#[track_caller]
pub const fn log2_strict_usize(n: usize) -> usize {
    // From `n.is_power_of_two()`, the compiler would not learn that `n` is not 0, and would make code for the logarithm of 0.
    assert!(n != 0 && n & (n - 1) == 0, "Not a power of two");
    bits::log2_strict_usize(n as Index) as _
}

/// The logarithm to base 3 of a power of three.
///
/// ```
/// assert_eq!(p3_util_proved::log3_strict_usize(9), 2);
/// ```
///
/// # Panics
///
/// If `n` is not a power of three.
#[inline]
#[must_use]
#[track_caller]
pub const fn log3_strict_usize(n: usize) -> usize {
    assert!(n != 0, "log3_strict_usize: input must be non-zero");
    assert!(bits::is_power_of_three(n as Index), "log3_strict_usize: input is not a power of 3");
    bits::log3_strict_usize(n as Index) as _
}

/// Reverses the k low binary digits of `x` and drops the others, for an `n` of 2^k. An `n` of 1 reverses all digits.
///
/// ```
/// assert_eq!(p3_util_proved::reverse_bits(0b0011, 16), 0b1100);
/// ```
///
/// # Panics
///
/// With debug assertions, if `n` is not a power of two. Without them, the lowest set digit of `n` is used, and an `n` of 0
/// reverses all digits.
#[inline(always)]
#[track_caller]
pub const fn reverse_bits(x: usize, n: usize) -> usize {
    debug_assert!(n.is_power_of_two());
    proved::reverse_bits(x, n)
}

/// Reverses the `bit_len` low binary digits of `x` and drops the others. A `bit_len` of 0 reverses all digits.
///
/// ```
/// assert_eq!(p3_util_proved::reverse_bits_len(0b0011, 4), 0b1100);
/// ```
///
/// # Panics
///
/// With debug assertions or overflow checks, if `bit_len` is above `usize::BITS`. Without both, the remainder by that is used.
#[inline(always)]
#[track_caller]
pub const fn reverse_bits_len(x: usize, bit_len: usize) -> usize {
    debug_assert!(bit_len <= usize::BITS as usize);
    proved::reverse_bits_len(x, bit_len)
}
