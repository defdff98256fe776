//! The calls on integers, made by a program that is built without link-time optimization. The package and the original
//! are crates of their own, and the compiler inlines what they allow it to inline.

use std::hash::{BuildHasher, BuildHasherDefault, DefaultHasher};
use std::hint::black_box;

use crate::timed::{Timed, timed};

/// The arguments of a call. Some calls take only the first one.
type Input = [usize; 2];

/// A call on integers. `$input` makes an input from 64 random digits. A pass makes one call for each input. The inputs are read
/// from memory and the results are written there one by one, so the compiler cannot vectorize several calls. It returns a
/// number that depends on all results.
macro_rules! word {
    ($name:literal, $call:ident $arguments:tt for $words:pat_param in $input:expr) => {
        timed!($name, 4096, |library, list| {
            let inputs: Vec<Input> = (0..).zip(&list).map(|(i, _)| random(i)).map($input).collect();
            let results: Vec<_> = inputs.iter().map(|&$words| format!("{:?}", library::$call $arguments)).collect();
            let result = BuildHasherDefault::<DefaultHasher>::default().hash_one(results);
            Box::new(move || {
                for &$words in &inputs {
                    black_box(library::$call $arguments);
                }
                result
            })
        })
    };
}

pub const WORDS: [Timed; 10] = [
    word!("log2_ceil_usize", log2_ceil_usize(n) for [n, _] in of_any_length),
    word!("log2_ceil_u64", log2_ceil_u64(n as u64) for [n, _] in of_any_length),
    word!("log2_floor_usize", log2_floor_usize(n) for [n, _] in of_any_length),
    word!("log2_strict_usize", log2_strict_usize(n) for [n, _] in power_of_two),
    word!("log3_strict_usize", log3_strict_usize(n) for [n, _] in power_of_three),
    word!("checked_pow2", checked_pow2(a) for [a, _] in short_sum),
    word!("checked_log_size_sum", checked_log_size_sum(a, b) for [a, b] in short_sum),
    word!("reverse_bits_len of 20 digits", reverse_bits_len(x, 20) for [x, _] in of_any_length),
    word!("reverse_bits_len of 1 to 64 digits", reverse_bits_len(x, digits) for [x, digits] in of_any_length),
    word!("reverse_bits", reverse_bits(x, n) for [x, n] in below_power),
];

/// An integer and the greatest number of digits that it may have, from 1 to 64.
fn of_any_length(random: u64) -> Input {
    let digits = random as usize % 64 + 1;
    [(random.reverse_bits() >> (64 - digits)) as usize, digits]
}

fn power_of_two(random: u64) -> Input {
    [1 << (random % 64), 0]
}

fn power_of_three(random: u64) -> Input {
    [3_usize.pow((random % 41) as u32), 0]
}

/// Two numbers up to 39, whose sum is usually below 64.
fn short_sum(random: u64) -> Input {
    [random as usize % 40, (random >> 32) as usize % 40]
}

/// An integer, and a power of two above it.
fn below_power(random: u64) -> Input {
    let n = 2 << (random % 63);
    [(random.reverse_bits() as usize) % n, n]
}

/// The `i`th number of a fixed list.
fn random(i: u64) -> u64 {
    let mixed = (i + 1).wrapping_mul(0x9e37_79b9_7f4a_7c15);
    (mixed ^ (mixed >> 32)).wrapping_mul(0xbf58_476d_1ce4_e5b9).rotate_left(32)
}
