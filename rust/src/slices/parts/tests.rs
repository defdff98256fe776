//! Runs each part of a call alone. It does what its plan says.

use std::array::from_fn;
use std::vec::Vec;

use super::{one_part_reversal, ranges_if_cut, row_reversal, transpose};
use crate::kernels::bulk::Tiled;
use crate::kernels::parts::{Plan, RowPairs, TransposePlan};
use crate::kernels::places::{SliceCells, SlicePlaces, SliceSource};
use crate::kernels::rows::reverse_rows;
use crate::kernels::transpose::Matrix;
use crate::kernels::ways::{Columns, PutRegion};

/// Into how many ranges a side is cut at most, if 2^`digits` rows are cut.
fn ranges(digits: u32, asked: usize) -> usize {
    ranges_if_cut(1, 0, asked / if digits % 2 == 0 { 2 } else { 4 }).unwrap()
}

/// Item `number` of a list. Its first byte tells it from most others, and its first eight from all.
fn item<const N: usize>(number: usize) -> [u8; N] {
    let mixed = number.wrapping_mul(0x9e37_79b9_7f4a_7c15).to_be_bytes();
    let mut item = [0; N];
    for part in item.chunks_mut(8) {
        part.copy_from_slice(&mixed[..part.len()]);
    }
    item
}

/// Runs part `number` of the reversal of these rows as a plan says, by the proved code and the holder of a slice that
/// checks each index. If the processor moves unaligned bytes fast, a row is one place if it has as many bytes as an item
/// that has kernels in this package.
fn exchange_by_plan<const N: usize, const WIDTH: usize>(rows: &mut [[[u8; N]; WIDTH]], asked: usize, number: usize) {
    let (len, ranges) = (rows.len() * WIDTH, ranges(rows.len().ilog2(), asked));
    let is_cut = len > one_part_reversal::<[u8; N]>();
    fn exchange(places: impl Tiled, width: usize, parts: usize, is_cut: bool, number: usize) {
        let len = places.len();
        if is_cut {
            let _ = RowPairs::new(len, width, parts).exchange(number, places);
        } else {
            let _ = reverse_rows(places, width);
        }
    }
    let moves_rows = cfg!(all(any(target_arch = "x86_64", target_arch = "aarch64"), not(unaligned_is_slow)));
    if moves_rows && matches!(N * WIDTH, 1 | 2 | 4 | 8 | 12 | 16 | 20 | 32 | 64) {
        exchange(SlicePlaces::new(rows), 1, ranges, is_cut, number);
    } else {
        exchange(SlicePlaces::new(rows.as_flattened_mut()), WIDTH, ranges, is_cut, number);
    }
}

/// Runs each part of a reversal of 2^`digits` rows alone.
fn exchanges_alone<const N: usize, const WIDTH: usize>(digits: u32, asked: usize) {
    let rows: Vec<[[u8; N]; WIDTH]> = (0..1 << digits).map(|row| from_fn(|col| item(row * WIDTH + col))).collect();
    let (mut moved, mut wanted) = (rows.clone(), rows.clone());
    let count = row_reversal(moved.as_flattened_mut(), WIDTH, asked).len();
    assert_eq!(count > 1, cfg!(not(feature = "checked")));
    for number in 0..count {
        moved.copy_from_slice(&rows);
        wanted.copy_from_slice(&rows);
        let part = row_reversal(moved.as_flattened_mut(), WIDTH, asked).nth(number);
        part.unwrap().run();
        exchange_by_plan(&mut wanted, asked, number);
        let is_wanted = moved.as_flattened().as_flattened() == wanted.as_flattened().as_flattened();
        assert!(is_wanted, "part {number} of rows of {WIDTH} items of {N} bytes");
    }
}

/// Runs each part of some transposes alone. The other cells keep their items.
fn puts_alone<const N: usize>() {
    for (width, height, asked) in [(40, 100, 3), (100, 40, 5), (64, 64, 2), (260, 33, 4)] {
        let input: Vec<[u8; N]> = (0..width * height).map(item).collect();
        let blank: Vec<[u8; N]> = (0..width * height).map(|place| item(!place)).collect();
        let source = SliceSource::new(&input);
        let plan = TransposePlan::new(width, height, asked, cfg!(not(feature = "checked")));
        for number in 0..plan.count() {
            let (mut output, mut wanted) = (blank.clone(), blank.clone());
            let part = transpose(&input, &mut output, width, height, asked).nth(number);
            part.unwrap().run();
            let matrix = Matrix::new(source, width, height);
            let _ = Columns.put(SliceCells::new(&mut wanted), matrix, plan.region(number));
            let is_wanted = output.as_flattened() == wanted.as_flattened();
            assert!(is_wanted, "part {number} of {width} by {height}, items of {N} bytes");
        }
    }
}

/// Each part alone does what the plan says, for items of each size that has kernels in this package, and of two others.
#[test]
fn each_part_alone() {
    macro_rules! sizes {
        ($($bytes:literal)*) => { $(
            exchanges_alone::<$bytes, 1>(17, 8);
            exchanges_alone::<$bytes, 2>(16, 4);
            exchanges_alone::<$bytes, 3>(15, 8);
            puts_alone::<$bytes>();
        )* };
    }
    sizes!(1 2 3 4 8 12 16 20 24 32 40 48 64);
}

#[cfg(not(feature = "checked"))]
mod races;
