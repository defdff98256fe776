//! How much stack the calls and their parts need. A release build gets as little as a thread can have. In a build without
//! optimization, an item that is passed on is on the stack, so such a build gets room for three copies of an item. Small
//! items go through vector registers, of which it has many copies, so for these it gets more, and most without debug assertions,
//! since then no function that uses registers has a frame of its own. `rust/test` makes that build with `unoptimized`.

#[path = "../package/common.rs"]
mod common;

use std::thread::{Builder, scope};

use common::transposed;
#[cfg(target_pointer_width = "64")]
use p3_util_proved::parts;
use p3_util_proved::transpose::transpose;

/// The least stack that a thread can have, in bytes. It has no room for an item of 64 KiB.
const LEAST: usize = 1 << 16;

/// The stack for a call on items of this many bytes. In a release build it has room for so many items more. A build with
/// information for debuggers needs more than those of `rust/test`, which are without it.
const fn stack_for(size: usize, items: usize) -> usize {
    match size {
        ..=64 if RELEASE => LEAST,
        _ if RELEASE => LEAST + items * size,
        ..=128 if cfg!(all(debug_assertions, feature = "checked")) => 128 << 10,
        ..=64 if cfg!(debug_assertions) => 112 << 10,
        ..=64 => 264 << 10,
        _ => LEAST + 3 * size,
    }
}

const RELEASE: bool = cfg!(not(any(debug_assertions, unoptimized)));

/// An item of `SIZE` bytes with this number in its first bytes, as far as it has room.
fn item<const SIZE: usize>(number: usize) -> [u8; SIZE] {
    let (mut item, len) = ([0; SIZE], SIZE.min(8));
    item[..len].copy_from_slice(&(number as u64).to_le_bytes()[..len]);
    item
}

/// This many items of `SIZE` bytes, each with its number.
fn numbered<const SIZE: usize>(len: usize) -> Vec<[u8; SIZE]> {
    (0..len).map(item).collect()
}

/// Whether these items have these numbers.
fn have<const SIZE: usize>(items: &[[u8; SIZE]], numbers: impl IntoIterator<Item = usize>) -> bool {
    items.iter().copied().eq(numbers.into_iter().map(item))
}

/// Makes a call on a thread with a small stack. If it needs more, the test program is aborted.
fn on_a_small_stack<const SIZE: usize, const ITEMS: usize>(call: impl FnOnce() + Send) {
    scope(|threads| {
        let stack = stack_for(SIZE, ITEMS);
        let thread = Builder::new().stack_size(stack).spawn_scoped(threads, call);
        thread.unwrap().join().unwrap();
    });
}

fn check_transposes<const SIZE: usize>(more: &[(usize, usize)]) {
    let shapes = [(2, 3), (5, 1), (1, 5), (8, 8), (16, 16), (20, 17)];
    for (width, height) in shapes.into_iter().chain(more.iter().copied()) {
        let input = numbered::<SIZE>(width * height);
        let mut output = numbered::<SIZE>(width * height);
        on_a_small_stack::<SIZE, 0>(|| transpose(&input, &mut output, width, height));
        let wanted = (0..width * height).map(|place| transposed(width, height, place));
        assert!(have(&output, wanted.clone()), "{width} by {height}");
        #[cfg(target_pointer_width = "64")]
        output.reverse();
        #[cfg(target_pointer_width = "64")]
        on_a_small_stack::<SIZE, 0>(|| {
            parts::transpose(&input, &mut output, width, height, 3).for_each(|part| part.run())
        });
        assert!(have(&output, wanted), "{width} by {height}, in parts");
    }
}

#[test]
#[cfg_attr(target_family = "wasm", ignore = "no thread starts there")]
fn transposes_of_large_items() {
    check_transposes::<{ 1 << 10 }>(&[]);
    check_transposes::<{ 1 << 16 }>(&[]);
}

/// The last of the lists of items of 4, 8 and 16 bytes has 32 MiB, and is put past the caches.
#[test]
#[cfg_attr(target_family = "wasm", ignore = "no thread starts there")]
fn transposes_of_small_items() {
    let more = [(64, 64), (100, 130), (300, 180)];
    check_transposes::<1>(&more);
    check_transposes::<2>(&more);
    check_transposes::<4>(&[more.as_slice(), &[(8192, 1024)]].concat());
    check_transposes::<8>(&[more.as_slice(), &[(4096, 1024)]].concat());
    check_transposes::<16>(&[more.as_slice(), &[(2048, 1024)]].concat());
    check_transposes::<32>(&more);
    check_transposes::<64>(&more);
    check_transposes::<128>(&more);
}

mod reversals {
    #[cfg(target_pointer_width = "64")]
    use p3_util_proved::parts;
    use p3_util_proved::{reverse_slice_index_bits, reverse_slice_row_index_bits};

    use super::common::reversed;
    use super::{have, numbered, on_a_small_stack};

    /// How many items a reversal has room for on the stack in a release build. With the feature `checked`, std's `swap` makes
    /// the exchanges. On 32 bits, the compiler may inline the kernels.
    const ITEMS: usize = if cfg!(any(feature = "checked", target_pointer_width = "32")) { 2 } else { 0 };

    fn check_reversals<const SIZE: usize>(more: &[u32]) {
        for bits in [1, 4, 7, 8].into_iter().chain(more.iter().copied()) {
            let mut items = numbered::<SIZE>(1 << bits);
            on_a_small_stack::<SIZE, ITEMS>(|| reverse_slice_index_bits(&mut items));
            let wanted = (0..1 << bits).map(|place| reversed(bits, place));
            assert!(have(&items, wanted), "2^{bits} items of {SIZE} bytes");
            #[cfg(target_pointer_width = "64")]
            {
                on_a_small_stack::<SIZE, ITEMS>(|| parts::reversal(&mut items, 3).for_each(|part| part.run()));
                assert!(have(&items, 0..1 << bits), "2^{bits} items of {SIZE} bytes, in parts");
            }
        }
    }

    /// Reverses empty lists too. A call may need stack for a kernel that it does not run.
    fn check_rows<const SIZE: usize>() {
        for width in [1, 2, 3, 4, 8, 16, 32] {
            on_a_small_stack::<SIZE, ITEMS>(|| reverse_slice_row_index_bits::<[u8; SIZE]>(&mut [], width));
            for bits in [1, 3] {
                let mut items = numbered::<SIZE>(width << bits);
                on_a_small_stack::<SIZE, ITEMS>(|| reverse_slice_row_index_bits(&mut items, width));
                let wanted = (0..width << bits).map(|place| reversed(bits, place / width) * width + place % width);
                let name = format!("2^{bits} rows of {width} items of {SIZE} bytes");
                assert!(have(&items, wanted), "{name}");
                #[cfg(target_pointer_width = "64")]
                {
                    on_a_small_stack::<SIZE, ITEMS>(|| {
                        parts::row_reversal(&mut items, width, 3).for_each(|part| part.run())
                    });
                    assert!(have(&items, 0..width << bits), "{name}, in parts");
                }
            }
        }
    }

    #[test]
    #[cfg_attr(target_family = "wasm", ignore = "no thread starts there")]
    fn reversals_of_large_items() {
        #[cfg(debug_assertions)]
        {
            check_reversals::<{ 1 << 10 }>(&[]);
            check_reversals::<{ 1 << 12 }>(&[]);
            check_reversals::<{ 1 << 14 }>(&[]);
        }
        check_reversals::<{ 1 << 16 }>(&[]);
    }

    /// Parts are cut from 2^17 items on.
    #[test]
    #[cfg_attr(target_family = "wasm", ignore = "no thread starts there")]
    fn reversals_and_rows_of_small_items() {
        macro_rules! check {
            ($($bytes:literal)*) => { $(
                check_reversals::<$bytes>(&[12, 17]);
                check_rows::<$bytes>();
            )* };
        }
        check!(1 2 4 8 16 32);
    }

    #[test]
    #[cfg_attr(target_family = "wasm", ignore = "no thread starts there")]
    fn rows_of_large_items() {
        #[cfg(debug_assertions)]
        {
            check_rows::<{ 1 << 10 }>();
            check_rows::<{ 1 << 12 }>();
            check_rows::<{ 1 << 14 }>();
        }
        check_rows::<{ 1 << 16 }>();
    }
}
