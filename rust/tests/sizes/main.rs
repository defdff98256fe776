//! Items of each size from 1 to 72 bytes, at each offset from a multiple of 8 bytes: calls on slices, rows, and parts.
//!
//! How an item is moved is chosen in the source by its size, so a build without optimization sees as much here as one with
//! it, and takes a fraction of the time. Only the calls are compiled for each size. All else is about bytes.

#![cfg(all(debug_assertions, target_pointer_width = "64"))]

#[path = "../package/common.rs"]
mod common;

use common::{reversed, transposed};
use p3_util_proved::parts::{self, ReversalPart, TransposePart};
use p3_util_proved::transpose::transpose;
use p3_util_proved::{reverse_slice_index_bits, reverse_slice_row_index_bits};

/// The calls for items of one size. Each takes the bytes of a list, or of two. A number of parts is a number to ask for.
struct Calls {
    size: usize,
    reverse: fn(&mut [u8]),
    reverse_rows: fn(&mut [u8], width: usize),
    reverse_in_parts: fn(&mut [u8], width: usize, parts: usize),
    transpose: fn(&[u8], &mut [u8], width: usize, height: usize),
    transpose_in_parts: fn(&[u8], &mut [u8], width: usize, height: usize, parts: usize),
}

/// These bytes as whole items of `N` bytes.
fn items<const N: usize>(bytes: &[u8]) -> &[[u8; N]] {
    // SAFETY: this many items lie within the bytes, and an array of bytes may be at any address.
    unsafe { std::slice::from_raw_parts(bytes.as_ptr().cast(), bytes.len() / N) }
}

/// These bytes as whole items of `N` bytes, which may be changed.
fn items_mut<const N: usize>(bytes: &mut [u8]) -> &mut [[u8; N]] {
    // SAFETY: as for `items`.
    unsafe { std::slice::from_raw_parts_mut(bytes.as_mut_ptr().cast(), bytes.len() / N) }
}

const fn calls<const N: usize>() -> Calls {
    Calls {
        size: N,
        reverse: |list| reverse_slice_index_bits(items_mut::<N>(list)),
        reverse_rows: |list, width| reverse_slice_row_index_bits(items_mut::<N>(list), width),
        reverse_in_parts: |list, width, count| {
            parts::row_reversal(items_mut::<N>(list), width, count).for_each(ReversalPart::run);
        },
        transpose: |input, output, width, height| transpose(items::<N>(input), items_mut(output), width, height),
        transpose_in_parts: |input, output, width, height, count| {
            parts::transpose(items::<N>(input), items_mut(output), width, height, count).for_each(TransposePart::run);
        },
    }
}

macro_rules! calls {
    ($($size:literal)*) => { [$(calls::<$size>()),*] };
}

const SIZES: [Calls; 72] = calls!(
    1 2 3 4 5 6 7 8 9 10 11 12 13 14 15 16 17 18 19 20 21 22 23 24 25 26 27 28 29 30 31 32 33 34 35 36
    37 38 39 40 41 42 43 44 45 46 47 48 49 50 51 52 53 54 55 56 57 58 59 60 61 62 63 64 65 66 67 68 69 70 71 72
);

/// The bytes of a list at an offset from a multiple of 8 bytes, and some bytes before and behind it.
struct List {
    words: Vec<[u64; 1]>,
    offset: usize,
    size: usize,
    len: usize,
}

/// A byte of an item. Each byte tells an item from most others.
fn byte(number: usize, byte: usize) -> u8 {
    (number * 181 + (number >> 8) * 91 + byte * 37) as u8
}

/// A byte before or behind a list.
const AROUND: u8 = 0xa5;

impl List {
    /// Items of `size` bytes, of which number `i` is the one with the number `number(i)`.
    fn new(size: usize, offset: usize, len: usize, number: impl Fn(usize) -> usize) -> Self {
        let words = vec![[0]; (offset + size * len) / 8 + 2];
        let mut list = List { words, offset, size, len };
        list.all().fill(AROUND);
        for (i, item) in list.bytes().chunks_exact_mut(size).enumerate() {
            item.iter_mut().enumerate().for_each(|(at, to)| *to = byte(number(i), at));
        }
        list
    }

    /// All bytes of the memory.
    fn all(&mut self) -> &mut [u8] {
        // SAFETY: these are the bytes of the words, and any bytes are a word.
        unsafe { std::slice::from_raw_parts_mut(self.words.as_mut_ptr().cast(), 8 * self.words.len()) }
    }

    /// The bytes of the list.
    fn bytes(&mut self) -> &mut [u8] {
        let (start, len) = (self.offset, self.size * self.len);
        &mut self.all()[start..start + len]
    }
}

/// Makes a call on the numbered items, once with the list at each offset. Then place `i` has to hold the item with the
/// number `wanted(i)`, and no byte around the list may have changed.
fn check_bytes(size: usize, len: usize, mut call: impl FnMut(&mut [u8]), wanted: impl Fn(usize) -> usize, name: &str) {
    for offset in 0..8 {
        let mut list = List::new(size, offset, len, |i| i);
        call(list.bytes());
        let mut right = List::new(size, offset, len, &wanted);
        assert!(list.all() == right.all(), "{name}, {len} items of {size} bytes at {offset}");
    }
}

#[test]
fn reversals() {
    for of in SIZES {
        for bits in 0..=9 {
            check_bytes(of.size, 1 << bits, of.reverse, |i| reversed(bits, i), "a reversal");
        }
    }
}

#[test]
fn rows() {
    for of in SIZES {
        for (bits, width) in [(1, 2), (4, 3), (6, 4), (8, 2), (4, 8), (2, 17), (2, 32)] {
            let wanted = |i: usize| reversed(bits, i / width) * width + i % width;
            check_bytes(of.size, width << bits, |list| (of.reverse_rows)(list, width), wanted, "rows");
        }
    }
}

/// These lists are one part each. Where a list is cut does not depend on the size of its items alone: `each_part_alone` of the
/// package and `rust/tests/lists/parts.rs` test it.
#[test]
fn reversals_by_parts() {
    for of in SIZES {
        for (bits, width) in [(8, 1), (6, 2), (5, 3)] {
            let wanted = |i: usize| reversed(bits, i / width) * width + i % width;
            let call = |list: &mut [u8]| (of.reverse_in_parts)(list, width, 4);
            check_bytes(of.size, width << bits, call, wanted, "parts of a reversal");
        }
    }
}

/// The shapes of the matrices, and how many parts they are cut into.
const SHAPES: [(usize, usize, usize); 7] =
    [(2, 3, 1), (4, 4, 1), (8, 16, 1), (16, 16, 1), (11, 13, 1), (33, 9, 3), (17, 40, 3)];

#[test]
fn transposes() {
    for of in SIZES {
        for (width, height, parts) in SHAPES {
            let (len, wanted) = (width * height, |place| transposed(width, height, place));
            let mut input = List::new(of.size, 3 * parts, len, |i| i);
            let whole = |list: &mut [u8]| (of.transpose)(input.bytes(), list, width, height);
            check_bytes(of.size, len, whole, wanted, "a transpose");
            let in_parts = |list: &mut [u8]| (of.transpose_in_parts)(input.bytes(), list, width, height, parts);
            check_bytes(of.size, len, in_parts, wanted, "parts of a transpose");
        }
    }
}
