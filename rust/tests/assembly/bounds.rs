//! Each function slices a list up to a power of two that is its length. `rust/test` looks at the assembly of both.
#![crate_type = "lib"]

use p3_util_proved::log2_strict_usize;

#[unsafe(no_mangle)]
pub fn hinted_by_the_call(list: &[u64]) -> &[u64] {
    &list[..1 << log2_strict_usize(list.len())]
}

/// Nothing tests whether the length is a power of two, so here the bound is tested. This shows that `rust/test` finds such a test.
#[unsafe(no_mangle)]
pub fn hinted_by_nothing(list: &[u64]) -> &[u64] {
    &list[..1 << list.len().trailing_zeros()]
}
