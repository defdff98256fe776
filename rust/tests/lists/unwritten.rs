//! Items that have bytes which were never written: padding, the payload of `None`, half of a `MaybeUninit`, and all bytes.
//! `rust/test` also runs these tests under valgrind, which reports each branch, each address and each result that depends on
//! such a byte.

use std::hint::black_box;
use std::mem::MaybeUninit;

use p3_util_proved::parts::{self, ReversalPart, TransposePart};
use p3_util_proved::transpose::transpose;
use p3_util_proved::{reverse_slice_index_bits, reverse_slice_row_index_bits};

use crate::common::{reversed, transposed};

/// Reverses and transposes lists of items. `write` writes item number i, field by field, so that all other bytes stay as
/// the allocator left them. `is` recognises it by what was written.
fn moves<T: Copy + Send + Sync>(write: impl Fn(*mut T, usize), is: impl Fn(&T, usize) -> bool) {
    let list = |len| {
        let mut items = Vec::<T>::with_capacity(len);
        for (i, item) in items.spare_capacity_mut()[..len].iter_mut().enumerate() {
            write(item.as_mut_ptr(), i);
        }
        // SAFETY: the capacity is at least `len`, and `write` wrote all that an item has.
        unsafe { items.set_len(len) };
        items
    };
    for (bits, width) in [(1, 1), (4, 1), (6, 1), (9, 1), (12, 1), (3, 2), (5, 8), (7, 3)] {
        let mut items = list(width << bits);
        match width {
            1 => reverse_slice_index_bits(&mut items),
            _ => reverse_slice_row_index_bits(&mut items, width),
        }
        for (place, got) in items.iter().enumerate() {
            let wanted = reversed(bits, place / width) * width + place % width;
            assert!(is(got, wanted), "place {place} of 2^{bits} rows of {width}");
        }
    }
    for (width, height) in [(2, 2), (4, 4), (8, 8), (16, 16), (17, 19), (33, 40), (64, 48)] {
        let mut output = list(width * height);
        transpose(&list(width * height), &mut output, width, height);
        for (place, got) in output.iter().enumerate() {
            let wanted = transposed(width, height, place);
            assert!(is(got, wanted), "place {place} of {width} by {height}");
        }
    }
}

/// Padding between fields and behind them. The last two have 24 and 40 bytes, and are written in parts.
#[test]
fn padding() {
    macro_rules! of {
        ($($item:ty: $of_number:expr;)*) => { $({
            let numbered: fn(usize) -> $item = $of_number;
            let write = |item: *mut $item, i| unsafe {
                // SAFETY (of both): the pointer is valid for writes of an item, so also for those of its fields.
                (&raw mut (*item).0).write(numbered(i).0);
                (&raw mut (*item).1).write(numbered(i).1);
            };
            moves(write, |item, i| *item == numbered(i));
        })* };
    }
    of! {
        (u8, u16): |i| (i as u8, i as u16);
        (u32, u8): |i| (i as u32, i as u8);
        (u64, u8): |i| (i as u64, i as u8);
        ([u64; 2], u8): |i| ([i as u64, !i as u64], i as u8);
        (u8, [u64; 4]): |i| (i as u8, [i as u64, 1, !i as u64, 3]);
    }
}

#[test]
fn payloads_that_are_not_there() {
    macro_rules! of {
        ($($payload:ty)*) => { $({
            let item = |i: usize| (i % 3 > 0).then_some(i as $payload);
            // SAFETY: the pointer is valid for writes of an item.
            moves(|to: *mut Option<$payload>, i| unsafe { to.write(item(i)) }, |got, i| *got == item(i));
        })* };
    }
    of!(u8 u16 u32);
}

#[test]
fn halves() {
    macro_rules! of {
        ($($whole:ty, $half:ty);*) => { $(moves(
            // SAFETY (of both): this half lies within the item, and is the one that was written.
            |item: *mut MaybeUninit<$whole>, i| unsafe { item.cast::<$half>().add(i % 2).write(i as $half) },
            |item, i| unsafe { item.as_ptr().cast::<$half>().add(i % 2).read() } == i as $half,
        );)* };
    }
    of!(u16, u8; u32, u16; u64, u32; u128, u64);
}

/// Calls `call` with `len` items of `N` bytes, of which none was ever written.
fn with_unwritten<const N: usize>(len: usize, call: impl FnOnce(&mut [MaybeUninit<[u8; N]>])) {
    call(&mut Vec::with_capacity(len).spare_capacity_mut()[..len]);
}

/// Reverses and transposes unwritten items, as a whole and in parts. Nothing that these calls do depends on an item, so
/// valgrind reports nothing.
fn moves_unwritten<const N: usize>() {
    for (bits, width) in [(0, 1), (1, 1), (6, 1), (9, 1), (17, 1), (3, 2), (5, 8), (4, 3), (15, 5)] {
        with_unwritten::<N>(width << bits, |items| {
            reverse_slice_row_index_bits(items, width);
            parts::row_reversal(items, width, 2).for_each(ReversalPart::run);
            if width == 1 {
                reverse_slice_index_bits(items);
                parts::reversal(items, 2).for_each(ReversalPart::run);
            }
        });
    }
    let small = [(1, 9), (2, 3), (8, 8), (16, 16), (17, 19), (40, 64), (64, 130), (300, 180)];
    // Lists of 32 MiB are put past the caches.
    let large = matches!(N, 4 | 8 | 16).then_some(((1 << 25) / N / 1024, 1024));
    for (width, height) in small.into_iter().chain(large) {
        with_unwritten::<N>(width * height, |input| {
            with_unwritten::<N>(width * height, |output| {
                transpose(input, output, width, height);
                parts::transpose(input, output, width, height, 3).for_each(TransposePart::run);
            });
        });
    }
}

/// Items of each size that has kernels in the package, and of two others.
#[test]
#[cfg_attr(debug_assertions, ignore = "only valgrind sees anything here")]
fn whole_items() {
    macro_rules! of {
        ($($bytes:literal)*) => { $(moves_unwritten::<$bytes>();)* };
    }
    of!(1 2 3 4 8 12 16 20 32 40 64);
}

/// What these tests look for: a branch that depends on a byte which was never written. `rust/test` looks whether valgrind
/// reports it.
#[test]
#[ignore = "valgrind has to report it"]
fn branch_on_an_item() {
    with_unwritten::<4>(64, |items| {
        // SAFETY: the byte is within the list. That it was never written is the fault.
        if unsafe { items.as_ptr().cast::<u8>().read_volatile() } == 7 {
            black_box(items);
        }
    });
}
