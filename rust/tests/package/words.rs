//! The calls on single integers.

use p3_util_proved::kernels::reverse::fits_rows;
use p3_util_proved::kernels::transpose::{Region, fits_matrix, fits_square};
use p3_util_proved::linear_map::LinearMap;
use p3_util_proved::zip_eq::zip_eq;
use p3_util_proved::*;

use crate::common::reversed;
use crate::refusal::panics;

/// The powers of two and of three, their neighbours, and the numbers up to 9.
fn powers_and_neighbours() -> impl Iterator<Item = usize> {
    let twos = (0..usize::BITS).map(|e| 1 << e);
    let threes = (0..=usize::MAX.ilog(3)).map(|e| 3usize.pow(e));
    let near = |n: usize| [n - 1, n, n.wrapping_add(1)];
    twos.chain(threes).flat_map(near).chain(0..=9).chain([usize::MAX])
}

#[test]
fn powers_and_their_neighbours() {
    for n in powers_and_neighbours() {
        let all = usize::BITS as usize;
        let floor = (0..all).rev().find(|e| 1 << e <= n).unwrap_or(0);
        let ceil = (0..all).find(|e| n <= 1 << e).unwrap_or(all);
        assert_eq!((log2_floor_usize(n), log2_ceil_usize(n)), (floor, ceil), "{n}");
        assert_eq!(log2_ceil_u64(n as u64), ceil as u64, "{n}");
        let two = (0..all).find(|e| n == 1 << e);
        let three = (0..=usize::MAX.ilog(3)).find(|e| n == 3usize.pow(*e));
        assert_eq!(two.is_none(), panics(|| _ = log2_strict_usize(n)), "{n}");
        assert_eq!(three.is_none(), panics(|| _ = log3_strict_usize(n)), "{n}");
        assert!(two.is_none_or(|e| log2_strict_usize(n) == e), "{n}");
        assert!(three.is_none_or(|e| log3_strict_usize(n) == e as usize), "{n}");
        // Both calls reverse all digits if they are asked for none.
        for bits in 0..=usize::BITS {
            let wanted = reversed(if bits == 0 { usize::BITS } else { bits }, n);
            assert_eq!(reverse_bits_len(n, bits as usize), wanted, "{n} {bits}");
            assert!(bits == usize::BITS || reverse_bits(n, 1 << bits) == wanted, "{n} {bits}");
        }
    }
}

#[test]
fn powers_that_fit() {
    let power = |exponent: usize| 1_usize.checked_shl(exponent.try_into().ok()?);
    let exponents = || (0..70).chain([usize::MAX - 1, usize::MAX]);
    for (a, b) in exponents().flat_map(|a| exponents().map(move |b| (a, b))) {
        assert_eq!(checked_pow2(a), power(a), "{a}");
        let wanted = a.checked_add(b).and_then(|sum| Some((sum, power(sum)?)));
        assert_eq!(checked_log_size_sum(a, b), wanted, "{a} {b}");
    }
}

/// Every number below 10 as the length of which `reverse_bits` takes the digits, and as the length of a list of indices.
#[test]
fn short_lengths() {
    for n in 0..10_usize {
        let is_refused = cfg!(debug_assertions) && !n.is_power_of_two();
        for x in 0..40 {
            // Without debug assertions, these are the digits below the lowest set digit of `n`, or all.
            let bits = (0..31).find(|bit| n >> bit & 1 == 1).unwrap_or(0);
            let wanted = reversed(if bits == 0 { usize::BITS } else { bits }, x);
            assert_eq!(panics(|| assert_eq!(reverse_bits(x, n), wanted)), is_refused, "{x} {n}");
        }
    }
    macro_rules! have_indices {
        ($($len:literal)*) => { $(assert!(indices_arr::<$len>().into_iter().eq(0..$len));)* };
    }
    have_indices!(0 1 2 3 4 5 6 7 8 9);
}

const ROWS: usize = 1 << 5;
const LOG_ROWS: usize = log2_strict_usize(ROWS);
static PLACES: [usize; ROWS] = {
    let mut places = indices_arr::<ROWS>();
    let mut i = 0;
    while i < ROWS {
        places[i] = reverse_bits_len(places[i], LOG_ROWS);
        i += 1;
    }
    places
};

/// A table as long as those that the original's calls make. It does not compile if reversing a number takes the
/// compiler too many steps.
static LONG_TABLE: [u16; 1 << 16] = {
    let mut table = [0; 1 << 16];
    let mut i = 0;
    while i < table.len() {
        table[i] = reverse_bits_len(i, 16) as u16;
        i += 1;
    }
    table
};
const OTHERS: (usize, usize, u64, usize, usize) = (
    log2_ceil_usize(9),
    log2_floor_usize(9),
    log2_ceil_u64(9),
    log3_strict_usize(531_441),
    reverse_bits(0b01011, ROWS),
);
const WHOLE: Region = Region { row_start: 0, row_end: 2, col_start: 0, col_end: 3 };
const FITS: [bool; 4] = [fits_rows(12, 3), fits_matrix(6, 6, 3, 3), fits_square(9, 1, 2, 1), WHOLE.fits(2, 3)];
const CHECKED: (Option<usize>, Option<(usize, usize)>) =
    (checked_pow2(usize::BITS as usize), checked_log_size_sum(20, 3));

#[test]
fn constants() {
    assert_eq!(LOG_ROWS, 5);
    assert_eq!(PLACES[..5], [0, 16, 8, 24, 4]);
    assert!((0..=u16::MAX).all(|i| LONG_TABLE[usize::from(i)] == i.reverse_bits()));
    assert_eq!(OTHERS, (4, 3, 4, 12, 0b11010));
    assert_eq!(FITS, [true, false, true, false]);
    assert_eq!(CHECKED, (None, Some((23, 8_388_608))));
    assert_eq!(indices_arr::<0>(), [0; 0]);
}

/// Each call whose unused answer the original warns of, and the new tests of conditions. Each has to bring a warning.
#[test]
#[deny(unfulfilled_lint_expectations)]
fn unused_answers() {
    macro_rules! unused {
        ($($call:expr;)*) => {
            $(#[expect(unused_must_use)]
            {
                $call;
            })*
        };
    }
    unused! {
        log2_ceil_usize(3);
        log2_ceil_u64(3);
        log2_floor_usize(3);
        log2_strict_usize(4);
        log3_strict_usize(3);
        checked_pow2(3);
        checked_log_size_sum(3, 4);
        indices_arr::<3>();
        iter_array_chunks_padded::<u8, 3>([], 0);
        zip_eq([1], [2], ()).unwrap();
        LinearMap::<u8, u8>::new().iter();
        LinearMap::<u8, u8>::new().keys();
        LinearMap::<u8, u8>::new().values();
        fits_rows(4, 2);
        fits_matrix(6, 6, 3, 2);
        fits_square(4, 0, 1, 1);
        WHOLE.fits(3, 2);
    }
}
