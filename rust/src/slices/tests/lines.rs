//! Tests of transposes by cache lines, in two parts and more. For `run` a list of 1024 bytes is long enough for that.

use std::boxed::Box;
use std::fmt::Debug;
use std::vec::Vec;

use super::transposed;
use crate::slices::parts::{TransposePart, transpose};

/// Transposes a matrix in some parts, and compares each item of the output with that of the definition. `input` and
/// `output` are the numbers of items before the lists. The items around the output have to stay.
fn transposes<T: Copy + Debug + PartialEq + Send + Sync>(
    [width, height]: [usize; 2],
    [input, output]: [usize; 2],
    parts: usize,
    item: impl Fn(usize) -> T,
) {
    let len = width * height;
    let list: Vec<T> = (0..input + len).map(&item).collect();
    let beside = item(len + 1000);
    let mut cells = std::vec![beside; output + len + 40];
    let mut all: Vec<_> = transpose(&list[input..], &mut cells[output..output + len], width, height, parts).collect();
    // Another order for each shape.
    while !all.is_empty() {
        all.swap_remove((7 * width + 3 * height) % all.len()).run();
    }
    let wanted = |place: usize| match place.checked_sub(output) {
        Some(place) if place < len => list[input + transposed(width, height, place)],
        _ => beside,
    };
    assert!(
        cells.iter().enumerate().all(|(place, got)| *got == wanted(place)),
        "{width} by {height} from {input} to {output}"
    );
}

/// Every offset of both lists within a cache line, for items of 4, 8 and 16 bytes, and columns that are whole lines or not.
#[test]
fn all_offsets() {
    for (input, output) in (0..16).flat_map(|input| (0..16).map(move |output| (input, output))) {
        transposes([19, 32], [input, output], 2, |number| number as u32);
        transposes([18, 24], [input % 8, output % 8], 2, |number| number);
        transposes([21, 37], [input, output], 2, |number| number as u32);
        transposes([21, 37], [input % 8, output % 8], 2, |number| number);
        transposes([21, 16 + input % 2], [input % 4, output % 4], 2, |number| [number, 7]);
    }
}

/// Some bytes, and then the items of a list.
#[repr(C)]
struct After<const BYTES: usize, const SIZE: usize> {
    before: [u8; BYTES],
    items: [[u8; SIZE]; 33 * 48],
}

/// Items that may begin at any address.
#[test]
fn all_addresses() {
    fn transposes<const BYTES: usize, const SIZE: usize>() {
        let mut list = Box::new(After { before: [9; BYTES], items: [[0; SIZE]; 33 * 48] });
        let number = |number: usize| std::array::from_fn(|byte| (number >> (byte % 4 * 8)) as u8 ^ byte as u8);
        let input: Vec<[u8; SIZE]> = (0..33 * 48).map(number).collect();
        transpose(&input, &mut list.items, 33, 48, 3).for_each(TransposePart::run);
        let wanted = |place: usize| input[place % 48 * 33 + place / 48];
        assert!(list.items.iter().enumerate().all(|(place, got)| *got == wanted(place)));
        assert_eq!(list.before, [9; BYTES]);
    }
    macro_rules! after {
        ($($bytes:literal)*) => { $(
            transposes::<$bytes, 4>();
            transposes::<$bytes, 8>();
            transposes::<$bytes, 16>();
        )* };
    }
    after!(0 1 2 3 4 5 6 7 8 12 15 16 17 20 31 32 33 47 48 60 61 62 63 64);
}

#[test]
fn all_heights() {
    for height in 1..=80 {
        for (width, parts) in [(15, 2), (16, 2), (33, 3), (100, 5), (1100, 2)] {
            transposes([width, height], [3, 5], parts, |number| number as u32);
            transposes([width, height], [2, 7], parts, |number| number);
            transposes([width, height], [0, 0], parts, |number| !number);
            transposes([width, height], [1, 3], parts, |number| [number, 7]);
        }
    }
}

/// A whole call, of more items than a matrix has that is not split.
#[test]
#[cfg_attr(miri, ignore = "too long")]
fn whole_calls() {
    fn transposes<T: Copy + PartialEq + Send + Sync>([width, height]: [usize; 2], item: impl Fn(usize) -> T) {
        let input: Vec<T> = (0..width * height).map(&item).collect();
        let mut output = std::vec![item(0); input.len()];
        crate::slices::transpose(&input, &mut output, width, height);
        let wanted = |place| input[transposed(width, height, place)];
        assert!(output.iter().enumerate().all(|(place, got)| *got == wanted(place)));
    }
    for (width, height) in [(1030, 1040), (16400, 64), (64, 16400), (1025, 1025), (1031, 1029)] {
        transposes([width, height], |number| number as u32);
        transposes([width, height / 2], |number| [number, 7, 8, 9]);
    }
}

/// Items with unwritten bytes and pointers are moved as they are.
#[test]
fn padding_and_pointers() {
    static TEXT: [u8; 128] = [7; 128];
    transposes([40, 64], [1, 3], 3, |number| &TEXT[number % 128..]);
    transposes([40, 64], [1, 3], 3, |number| &TEXT[number % 128]);
    transposes([40, 64], [1, 3], 3, |number| (number as u8, number as u32));
    transposes([40, 64], [1, 3], 3, |number| (number % 3 > 0).then_some(number as u16));
}
