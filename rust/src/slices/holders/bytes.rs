//! Moves the bytes of items, whatever they mean, and whether or not they were ever written.

use core::mem::MaybeUninit;
use core::sync::atomic::{Ordering, compiler_fence};

use super::registers::{self, Widest};

/// Whether this processor moves unaligned bytes as fast as aligned ones. Otherwise each item is moved as its type says. On
/// some systems, rustc moves unaligned bytes of aarch64 one by one. `rust/test` makes a build in which it is false.
///
/// `registers::USES_REGISTERS` relies on it that no third processor does.
pub(crate) const MOVES_BYTES: bool = cfg!(not(unaligned_is_slow))
    && (cfg!(target_arch = "x86_64")
        || cfg!(target_arch = "aarch64")
            && !cfg!(any(target_os = "none", target_os = "hermit", target_os = "nuttx", target_os = "teeos")));

/// An item of `N` bytes, of which only the size is known, or a row of such items.
///
/// A copy of a `MaybeUninit` keeps each byte as it is, also if it was never written, and keeps the provenance of each
/// pointer. So does a copy in parts: each part is a `MaybeUninit`. With an alignment of 1, a reference to these bytes is
/// aligned wherever the item is. Only whole items move, within their list, so each place has an item afterwards.
pub(crate) type Bytes<const N: usize> = [MaybeUninit<u8>; N];

/// Some bytes at any address, which are read and written like an item that is aligned.
#[derive(Clone, Copy)]
#[repr(C, packed)]
pub(super) struct Unaligned<P>(pub(super) P);

/// Writes an item in the order of [`move_bytes`]. The compiler would write the upper part first, or parts that overlap. That
/// takes longer, most of all if the item lies in two cache lines, except with debug assertions.
///
/// # Safety
///
/// `to` is valid for writes of an item, and aligned.
#[inline(always)]
pub(super) unsafe fn write_item<T>(to: *mut T, item: T) {
    // SAFETY: this is what the caller promises, and a copy of the item is only read.
    unsafe {
        if const { MOVES_BYTES && size_of::<T>() <= 64 && cfg!(not(debug_assertions)) } {
            let item = MaybeUninit::new(item);
            let (from, to) = (item.as_ptr().cast_mut().cast(), to.cast());
            write_registers::<T>(from, to);
            move_bytes::<false>(from, to, const { size_of::<T>() / 16 * 16 }, size_of::<T>());
        } else {
            to.write(item);
        }
    }
}

/// Writes the parts of 16 bytes that the item has. Within [`write_item`], this would slow down the reversal of 64 items of 3 or
/// 5 bytes.
#[inline(always)]
unsafe fn write_registers<T>(from: *mut u8, to: *mut u8) {
    // With `opt-level = "s"`, a loop would not be unrolled.
    macro_rules! write_each {
        ($($at:literal)*) => {$(
            if const { $at + 16 <= size_of::<T>() } {
                // SAFETY: the item has these 16 bytes, and the caller promises that they may be written.
                unsafe { move_part::<registers::Vector, false>(from.add($at), to.add($at), 16) };
                // Without the fence, the compiler would join two parts of an item. With AVX, two registers are one.
                if const { size_of::<T>() >= 32 && ($at % 32 == 16 || cfg!(not(target_feature = "avx"))) } {
                    compiler_fence(Ordering::SeqCst);
                }
            }
        )*};
    }
    write_each!(0 16 32 48);
}

/// Exchanges two runs of `len` bytes.
///
/// # Safety
///
/// Both runs are valid for reads and writes, and do not overlap.
#[inline(never)]
pub(super) unsafe fn swap_bytes(x: *mut u8, y: *mut u8, len: usize) {
    // SAFETY: this is what the caller promises.
    unsafe { move_bytes::<true>(x, y, 0, len) }
}

/// Copies the `len` bytes at `from` to `to`, except for the first `done`, which is a multiple of 16. If `BACK` is true, it
/// also copies those at `to` to `from`. From the lowest address on, it moves parts of 16 bytes, with AVX of 32, and then one
/// of each smaller power of two that is a digit of the rest: up to 15 single bytes would take longer.
///
/// # Safety
///
/// The bytes at `from` are valid for reads and those at `to` for writes, and if `BACK` is true, both for both. They do
/// not overlap, or are the same bytes.
#[inline(always)]
pub(super) unsafe fn move_bytes<const BACK: bool>(from: *mut u8, to: *mut u8, mut done: usize, len: usize) {
    // SAFETY: each part is within the `len` bytes.
    unsafe {
        while len - done >= size_of::<Widest>() {
            done += move_part::<Widest, BACK>(from.add(done), to.add(done), size_of::<Widest>());
        }
        done += move_part::<registers::Vector, BACK>(from.add(done), to.add(done), len - done);
        done += move_part::<registers::Word, BACK>(from.add(done), to.add(done), len);
        done += move_part::<MaybeUninit<u32>, BACK>(from.add(done), to.add(done), len);
        done += move_part::<MaybeUninit<u16>, BACK>(from.add(done), to.add(done), len);
        move_part::<MaybeUninit<u8>, BACK>(from.add(done), to.add(done), len);
    }
}

/// Does the same for one part, if its size is a digit of `len` that is set. Returns how many bytes it moved.
#[inline(always)]
unsafe fn move_part<P, const BACK: bool>(from: *mut u8, to: *mut u8, len: usize) -> usize {
    if len & size_of::<P>() == 0 {
        return 0;
    }
    let (from, to) = (from.cast::<P>(), to.cast::<P>());
    // SAFETY: this is what the caller promises.
    unsafe {
        let part = from.read_unaligned();
        if BACK {
            from.write_unaligned(to.read_unaligned());
        }
        to.write_unaligned(part);
    }
    size_of::<P>()
}
