//! Items of every alignment and kind. The test program `sizes` has those of every size up to 72 bytes.

use std::array;
use std::cell::Cell;
use std::fmt::Debug;
use std::num::NonZero;
use std::sync::atomic::{AtomicUsize, Ordering::Relaxed};

#[cfg(target_pointer_width = "64")]
use p3_util_proved::parts;
use p3_util_proved::transpose::transpose;
use p3_util_proved::{reverse_slice_index_bits, reverse_slice_row_index_bits};

use crate::common::{Owner, reversed, transposed};
use crate::refusal::panics;

/// Reverses rows in parts. A system of 32 bits has no parts, and there this is the call.
fn reverse_in_parts<F: Send + Sync>(list: &mut [F], width: usize) {
    #[cfg(target_pointer_width = "64")]
    parts::row_reversal(list, width, 2).for_each(|part| part.run());
    #[cfg(target_pointer_width = "32")]
    reverse_slice_row_index_bits(list, width);
}

/// Transposes a matrix in so many parts, and with 0 or on a system of 32 bits by the call.
fn transpose_in<T: Copy + Send + Sync>(parts: usize, input: &[T], output: &mut [T], width: usize, height: usize) {
    match parts {
        #[cfg(target_pointer_width = "64")]
        1.. => parts::transpose(input, output, width, height, parts).for_each(|part| part.run()),
        _ => transpose(input, output, width, height),
    }
}

/// Reverses 2^`bits` rows of `width` of the items that `item` makes, and reverses them back in parts. Then each item is dropped,
/// which it would be twice or never if it was at two places or at none.
fn reverses<F: Debug + PartialEq + Send + Sync>(item: impl Fn(usize) -> F, bits: u32, width: usize) {
    let mut list: Vec<F> = (0..width << bits).map(&item).collect();
    match width {
        1 => reverse_slice_index_bits(&mut list),
        _ => reverse_slice_row_index_bits(&mut list, width),
    }
    for (i, got) in list.iter().enumerate() {
        let wanted = item(reversed(bits, i / width) * width + i % width);
        assert_eq!(*got, wanted, "place {i} of 2^{bits} rows of {width}");
    }
    reverse_in_parts(&mut list, width);
    for (i, got) in list.iter().enumerate() {
        assert_eq!(*got, item(i), "place {i} of 2^{bits} rows of {width} in parts");
    }
}

/// Reverses lists and rows of the items that `item` makes. The longest lists have squares of several leaves of the kernel, and
/// are cut into parts: they have more than 2^16 items, or more than 2^21 bytes.
fn moves<F: Debug + PartialEq + Send + Sync>(item: impl Fn(usize) -> F) {
    let (short, long) = match size_of::<F>() {
        _ if cfg!(miri) => (0..=6, [8, 9]),
        ..=64 => (0..=12, [16, 17]),
        _ => (0..=12, [13, 14]),
    };
    short.chain(long).for_each(|bits| reverses(&item, bits, 1));
    for (bits, width) in (0..=6).flat_map(|bits| [2, 3, 5, 8].map(|width| (bits, width))) {
        reverses(&item, bits, width);
    }
}

/// Transposes matrices of the items that `item` makes, whole and in parts, and calls `moves` for them too.
fn serves<T: Copy + Debug + PartialEq + Send + Sync>(item: impl Fn(usize) -> T) {
    moves(&item);
    let shapes = [(1, 7), (5, 3), (4, 4), (16, 16), (17, 19), (33, 40), (64, 48), (300, 60)];
    for ((width, height), parts) in
        shapes.into_iter().take(if cfg!(miri) { 6 } else { 8 }).flat_map(|shape| [0, 1, 2].map(|parts| (shape, parts)))
    {
        let input: Vec<T> = (0..width * height).map(&item).collect();
        let mut output = vec![item(0); input.len()];
        transpose_in(parts, &input, &mut output, width, height);
        for (i, got) in output.iter().enumerate() {
            let wanted = item(transposed(width, height, i));
            assert_eq!(*got, wanted, "place {i} of {width} by {height} in {parts} parts");
        }
    }
}

#[test]
fn numbers() {
    serves(|i| (i * 7 + (i >> 8) * 31) as u8);
    serves(|i| (i * 31) as u16);
    serves(|i| i as u32);
    serves(|i| i as u64 * 0x1_0000_0001);
    serves(|i| i as u128 * 0x1_0000_0000_0000_0001);
}

/// Items of more than 72 bytes.
#[test]
fn large_items() {
    serves(|i| array::from_fn::<u8, 257, _>(|k| (i >> (k % 3 * 8)) as u8 ^ k as u8));
    serves(|i| (i as u8, [i as u64; 12]));
}

#[derive(Clone, Copy, Debug, PartialEq)]
struct Padded {
    small: u8,
    large: u32,
}

#[derive(Clone, Copy, Debug, PartialEq)]
#[repr(align(32))]
struct Aligned(u8);

/// Items with padding, with values that no item has, and with pointers, of sizes that have kernels in the package and of others.
#[test]
fn padding_and_pointers() {
    static TEXT: &str = "items of a text that is borrowed by all of them, in pieces of up to seven bytes";
    let byte = |i| TEXT.as_bytes().get(i % 90);
    serves(|i| i % 3 == 0);
    serves(|i| (i % 2 > 0).then_some(i % 3 > 0));
    serves(|i| i.cmp(&9));
    serves(|i| Padded { small: i as u8, large: !(i as u32) });
    serves(|i| (i as u16, i as u8));
    serves(|i| Aligned(i as u8));
    serves(|i| (i % 3 > 0).then_some(i as u32));
    serves(|i| char::from_u32(i as u32 * 7 + 64));
    serves(|i| NonZero::new(i as u32 % 5));
    serves(byte);
    serves(|i| (i as u32, i as u32 + 1, i as u8));
    serves(|i| &TEXT[i % 64..i % 64 + i % 8]);
    serves(|i| (byte(i), i as u8));
    serves(|i| ([i as u32; 4], i as u8));
    serves(|i| (Some(&TEXT[i % 64..]), i));
    serves(|i| ([i; 3], i as u8));
    serves(|i| ([&TEXT[i % 64..]; 3], i, i as u8));
    serves(|i| ([i; 140], i as u8));
}

/// Items with a destructor, of sizes that have kernels in the package and of others.
#[test]
fn items_with_destructors() {
    let text = |i: usize| i.to_string();
    moves(Box::new);
    moves(|i| (i % 3 > 0).then(|| Box::new(i)));
    moves(|i| (Box::new(i), i as u8));
    moves(|i| text(i).into_boxed_str());
    moves(text);
    moves(|i| (text(i), i as u8));
    moves(|i| (text(i), text(i + 1), Box::new(i), i as u8));
    moves(|i| vec![Box::new(i); i % 3]);
    moves(|i| array::from_fn::<_, 50, _>(|k| text(i + k)));
}

/// No call drops an owner, so each is dropped once in the end.
#[test]
fn owners() {
    let (made, drops) = (Cell::new(0), AtomicUsize::new(0));
    moves(|i| {
        made.set(made.get() + 1);
        Owner::new(i, &drops)
    });
    assert_eq!(drops.load(Relaxed), made.get());
}

#[test]
fn a_refused_call_drops_no_owner() {
    let drops = AtomicUsize::new(0);
    let mut owners = Owner::list(6, &drops);
    assert!(panics(|| reverse_slice_index_bits(&mut owners)));
    assert!(panics(|| reverse_slice_row_index_bits(&mut owners, 4)));
    assert_eq!(drops.load(Relaxed), 0);
}

#[test]
#[cfg(target_pointer_width = "64")]
fn items_without_bytes() {
    reverse_slice_index_bits(&mut [(); 1 << 40]);
    reverse_slice_index_bits(&mut [(); 1 << 63]);
    reverse_slice_row_index_bits(&mut [(); 3 << 40], 3);
    let (input, mut output) = ([(); 1 << 40], [(); 1 << 40]);
    transpose(&input, &mut output, 1 << 15, 1 << 25);
    transpose(&[(); 1 << 63], &mut [(); 1 << 63], 1 << 63, 1);
    assert!(panics(|| reverse_slice_index_bits(&mut [(); 3 << 40])));
    assert!(panics(|| reverse_slice_index_bits(&mut [(); usize::MAX])));
    assert!(panics(|| reverse_slice_row_index_bits(&mut [(); 5 << 40], 3)));
    assert!(panics(|| transpose(&input, &mut output, 1 << 20, 1 << 21)));
    assert!(panics(|| transpose(&input, &mut [(); 1], 1 << 20, 1 << 20)));
}

#[test]
fn lists_without_items() {
    fn nothing_is_done<T: Copy + Send + Sync>() {
        reverse_slice_index_bits::<T>(&mut []);
        for side in [0, 1, 5, usize::MAX] {
            reverse_slice_row_index_bits::<T>(&mut [], side);
            transpose::<T>(&[], &mut [], side, 0);
            transpose::<T>(&[], &mut [], 0, side);
        }
    }
    nothing_is_done::<()>();
    nothing_is_done::<u64>();
    nothing_is_done::<[u8; 5]>();
}
