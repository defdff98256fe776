//! Items of each size, as slices over bytes at any address, and the calls on such slices by both crates.

use std::fmt;

use p3_util_proved::parts::{self, ReversalPart, TransposePart};

use crate::answer::Side;
use crate::choices::Choices;

/// Whose call it is. The package's is also made in parts, of which the last one runs first.
#[derive(Clone, Copy)]
pub enum By {
    Original,
    Package,
    Parts(usize),
}

impl By {
    /// The package, in parts or not.
    pub fn chosen(choices: &mut Choices) -> Self {
        if choices.once_in(4) { By::Parts(choices.up_to(64)) } else { By::Package }
    }

    /// The original's call, or the package's as it was chosen.
    pub fn on(self, side: Side) -> Self {
        match side {
            Side::Original => By::Original,
            Side::Package => self,
        }
    }
}

impl fmt::Display for By {
    fn fmt(&self, f: &mut fmt::Formatter<'_>) -> fmt::Result {
        match self {
            By::Parts(parts) => write!(f, ", in {parts} parts"),
            _ => Ok(()),
        }
    }
}

/// The calls on slices of one type of items. The bytes are those of the slices.
pub struct Item {
    pub name: &'static str,
    pub size: usize,
    pub align: usize,
    pub reverse: fn(By, &mut [u8]),
    pub reverse_rows: fn(By, &mut [u8], usize),
    pub transpose: fn(By, &[u8], &mut [u8], usize, usize),
}

/// A type whose values are any bytes.
///
/// # Safety
///
/// It has no padding, and its bytes may have any values.
unsafe trait AnyBytes: Copy + Send + Sync {}

macro_rules! any_bytes {
    ($($number:ty)*) => {
        $(
            // SAFETY: an integer is any bytes.
            unsafe impl AnyBytes for $number {}
            // SAFETY: an array of such items has nothing between them.
            unsafe impl<const N: usize> AnyBytes for [$number; N] {}
        )*
    };
}

any_bytes!(u8 u16 u32 u64 u128);

macro_rules! items {
    ($($item:ty),*) => {
        &[$(Item {
            name: stringify!($item),
            size: size_of::<$item>(),
            align: align_of::<$item>(),
            reverse: reverse::<$item>,
            reverse_rows: reverse_rows::<$item>,
            transpose: transpose::<$item>,
        }),*]
    };
}

macro_rules! bytes {
    ($($size:literal)*) => { items!($([u8; $size]),*) };
}

/// Items of 1 to 72 bytes, at any address.
const OF_BYTES: &[Item] = bytes!(
    1 2 3 4 5 6 7 8 9 10 11 12 13 14 15 16 17 18 19 20 21 22 23 24 25 26 27 28 29 30 31 32 33 34 35 36 37 38 39 40 41 42 43
    44 45 46 47 48 49 50 51 52 53 54 55 56 57 58 59 60 61 62 63 64 65 66 67 68 69 70 71 72
);

/// Items of integers, at addresses that these may have.
const OF_INTEGERS: &[Item] = items!(
    u16, u32, u64, u128, [u16; 3], [u32; 3], [u64; 2], [u32; 5], [u64; 3], [u64; 4], [u64; 5], [u64; 6], [u64; 8],
    [u64; 9]
);

pub fn chosen(choices: &mut Choices) -> &'static Item {
    let of = if choices.once_in(4) { OF_INTEGERS } else { OF_BYTES };
    &of[choices.below(of.len())]
}

fn reverse<T: AnyBytes>(by: By, bytes: &mut [u8]) {
    let list = items_mut::<T>(bytes);
    match by {
        By::Original => p3_util::reverse_slice_index_bits(list),
        By::Package => p3_util_proved::reverse_slice_index_bits(list),
        By::Parts(parts) => last_first(parts::reversal(list, parts), ReversalPart::run),
    }
}

/// The original has no call for rows. It reverses the numbers of the rows, which are then moved by it.
fn reverse_rows<T: AnyBytes>(by: By, bytes: &mut [u8], row_width: usize) {
    let list = items_mut::<T>(bytes);
    match by {
        By::Original => {
            let rows = list.len().checked_div(row_width).unwrap_or(0);
            assert_eq!(rows * row_width, list.len());
            let mut from: Vec<usize> = (0..rows).collect();
            p3_util::reverse_slice_index_bits(&mut from);
            let old = list.to_vec();
            for (row, from) in from.into_iter().enumerate() {
                list[row * row_width..][..row_width].copy_from_slice(&old[from * row_width..][..row_width]);
            }
        }
        By::Package => p3_util_proved::reverse_slice_row_index_bits(list, row_width),
        By::Parts(parts) => last_first(parts::row_reversal(list, row_width, parts), ReversalPart::run),
    }
}

fn transpose<T: AnyBytes>(by: By, input: &[u8], output: &mut [u8], width: usize, height: usize) {
    let (input, output) = (items::<T>(input), items_mut::<T>(output));
    match by {
        By::Original => p3_util::transpose::transpose(input, output, width, height),
        By::Package => p3_util_proved::transpose::transpose(input, output, width, height),
        By::Parts(parts) => last_first(parts::transpose(input, output, width, height, parts), TransposePart::run),
    }
}

fn last_first<P>(parts: impl Iterator<Item = P>, run: fn(P)) {
    parts.collect::<Vec<_>>().into_iter().rev().for_each(run);
}

fn items<T: AnyBytes>(bytes: &[u8]) -> &[T] {
    let list = bytes.as_ptr().cast::<T>();
    assert!(list.is_aligned() && bytes.len().is_multiple_of(size_of::<T>()));
    // SAFETY: the pointer is aligned, the bytes are those of a shared slice, and `T` has no other values than bytes have.
    unsafe { std::slice::from_raw_parts(list, bytes.len() / size_of::<T>()) }
}

fn items_mut<T: AnyBytes>(bytes: &mut [u8]) -> &mut [T] {
    let list = bytes.as_mut_ptr().cast::<T>();
    assert!(list.is_aligned() && bytes.len().is_multiple_of(size_of::<T>()));
    // SAFETY: as in `items`, of an exclusive slice.
    unsafe { std::slice::from_raw_parts_mut(list, bytes.len() / size_of::<T>()) }
}
