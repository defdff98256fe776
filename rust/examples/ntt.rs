//! A number-theoretic transform modulo the prime 2013265921, compared with the sum that defines it.
//!
//! It puts the numbers into the order of reversed index bits, and then joins transforms of half the length in pairs.

use p3_util_proved::{log2_strict_usize, reverse_slice_index_bits};
// The package's own name. Your Cargo.toml may name it p3_util, as README shows, so that code for the original compiles.

/// The prime `15 * 2^27 + 1`.
const P: u64 = 2_013_265_921;

/// Its powers are all numbers below `P` except 0.
const GENERATOR: u64 = 31;

fn power(base: u64, exponent: u64) -> u64 {
    match exponent {
        0 => 1,
        _ if exponent % 2 == 1 => base * power(base, exponent - 1) % P,
        _ => power(base * base % P, exponent / 2),
    }
}

/// A root of unity modulo `P`: its powers repeat after `2^log_order` of them, and not earlier.
fn root(log_order: usize) -> u64 {
    power(GENERATOR, (P - 1) >> log_order)
}

/// Number k of the transform: the sum of `values[j] * w^(j * k)` over all j, where w is the root whose order is the
/// length.
fn by_definition(values: &[u64], k: u64) -> u64 {
    let w = power(root(log2_strict_usize(values.len())), k);
    values.iter().rev().fold(0, |sum, value| (sum * w + value) % P)
}

/// Replaces `values` by their transform. The number of values is a power of two.
fn transform(values: &mut [u64]) {
    reverse_slice_index_bits(values);
    for log_half in 0..log2_strict_usize(values.len()) {
        let half = 1 << log_half;
        let w = root(log_half + 1);
        for block in values.chunks_exact_mut(2 * half) {
            let (low, high) = block.split_at_mut(half);
            join(low, high, w);
        }
    }
}

/// Joins the transforms of the numbers at even and at odd indices. `w` is the root whose order is both lengths
/// together.
fn join(of_even: &mut [u64], of_odd: &mut [u64], w: u64) {
    let mut twiddle = 1;
    for (x, y) in of_even.iter_mut().zip(of_odd) {
        let turned = *y * twiddle % P;
        *y = (*x + P - turned) % P;
        *x = (*x + turned) % P;
        twiddle = twiddle * w % P;
    }
}

fn main() {
    for log_len in 0..=10 {
        let values: Vec<u64> = (0..1 << log_len).map(|i| power(7, i) * (i + 1) % P).collect();
        let mut transformed = values.clone();
        transform(&mut transformed);
        for (k, found) in (0..).zip(&transformed) {
            assert_eq!(*found, by_definition(&values, k), "number {k} of 2^{log_len}");
        }
    }
    println!("the transforms of up to 1024 numbers are as the sum defines them");
}
