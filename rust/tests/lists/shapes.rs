//! Lists of every length and matrices of every shape, compared with the definitions.

use p3_util_proved::reverse_slice_index_bits;
use p3_util_proved::transpose::transpose;

use crate::common::reversed;
use crate::refusal::panics;

/// Reverses the numbers below `len` if `len` is zero or a power of two. Otherwise the call panics and changes nothing.
fn check_length(len: usize) {
    let mut list: Vec<usize> = (0..len).collect();
    let panicked = panics(|| reverse_slice_index_bits(&mut list));
    assert_eq!(panicked, len != 0 && !len.is_power_of_two(), "{len}");
    let bits = if panicked || len == 0 { 0 } else { len.ilog2() };
    for (i, got) in list.iter().enumerate() {
        let wanted = if panicked { i } else { reversed(bits, i) };
        assert_eq!(*got, wanted, "place {i} of {len}");
    }
}

#[test]
fn lists_of_each_length() {
    (0..=1 << 12).for_each(check_length);
    (13..=20).for_each(|bits| check_length(1 << bits));
}

/// Transposes the items that `item` makes, and compares each column.
fn check_shape<T: Copy + PartialEq + Send + Sync>(item: &impl Fn(usize) -> T, (width, height): (usize, usize)) {
    let input: Vec<T> = (0..width * height).map(item).collect();
    let mut output = vec![item(usize::MAX); input.len()];
    transpose(&input, &mut output, width, height);
    for (x, column) in output.chunks_exact(height).enumerate() {
        let wanted = input[x..].iter().step_by(width);
        assert!(column.iter().eq(wanted), "column {x} of {width} by {height}");
    }
}

/// The shapes of the original's tests with a side above 70, except single rows and columns and the large ones.
const SHAPES: [(usize, usize); 7] = [(17, 96), (96, 17), (120, 140), (128, 129), (140, 120), (300, 60), (60, 300)];

/// Every pair of sides up to 70, a single row and a single column of up to 256 items and of about 4096, `SHAPES`, and a large
/// matrix that is split.
fn check_shapes<T: Copy + PartialEq + Send + Sync>(item: impl Fn(usize) -> T) {
    let pairs = (1..=70).flat_map(|width| (1..=70).map(move |height| (width, height)));
    let lines = (71..=256).chain(4095..=4097).flat_map(|len| [(len, 1), (1, len)]);
    pairs.chain(lines).chain(SHAPES).chain([(1025, 1025)]).for_each(|shape| check_shape(&item, shape));
}

#[test]
fn shapes_of_bytes() {
    check_shapes(|i| (i % 251) as u8);
}

#[test]
fn shapes_of_words() {
    check_shapes(|i| i as u64);
}

/// The large shapes of the original's tests, more that the benchmark measures, and the smallest matrix that is split.
const LARGE_SHAPES: [(usize, usize); 22] = [
    (1024, 1024),
    (1025, 1024),
    (1024, 1025),
    (1100, 1000),
    (2050, 512),
    (512, 2050),
    (2003, 757),
    (757, 2003),
    (512, 512),
    (1000, 1024),
    (2048, 2048),
    (4096, 4096),
    (4096, 16),
    (16, 65_536),
    (300, 4096),
    (100, 16_384),
    (40, 65_536),
    (12, 262_144),
    (65_536, 40),
    (262_144, 12),
    (17, 61_681),
    (61_681, 17),
];

/// These shapes, and single rows and columns. A build without optimization takes half a minute for them, so it has them of one
/// type.
fn check_large_shapes<T: Copy + PartialEq + Send + Sync>(item: impl Fn(usize) -> T) {
    let lines = (1_048_575..=1_048_577).flat_map(|len| [(len, 1), (1, len)]);
    lines.chain(LARGE_SHAPES).for_each(|shape| check_shape(&item, shape));
}

#[test]
fn large_shapes() {
    check_large_shapes(|i| i as u32);
}

#[cfg(not(debug_assertions))]
#[test]
fn large_shapes_of_other_items() {
    check_large_shapes(|i| [i as u8, (i >> 8) as u8, (i >> 16) as u8]);
    check_large_shapes(|i| i as u64);
    check_large_shapes(|i| i as u128);
}
