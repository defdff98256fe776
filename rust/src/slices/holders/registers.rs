//! How vector registers of x86-64 and aarch64 are interleaved and halved, to transpose tiles and blocks of items of 1, 2, 4
//! and 8 bytes. `holders.rs` reads and writes halves. Proved code (`kernels::registers`) decides which, and where.
//!
//! Items may be pointers, or have bytes that were never written, so a register must never be read as a number. It is a
//! [`MaybeUninit`], and a copy of it keeps each byte, and the provenance of each pointer. The shuffles of `core::arch` take
//! numbers. Therefore a shuffle here is one assembly instruction. It has the effect of Rust code that moves the bytes one
//! by one, and touches no memory. Rust code reads and writes items, so a race detector sees these accesses. Only a store
//! past the caches and, on x86-64, that of the second half of a register are assembly too.

use core::mem::MaybeUninit;

use super::bytes::{Bytes, MOVES_BYTES, Unaligned};
use crate::kernels::registers;

#[cfg(all(target_arch = "aarch64", target_feature = "neon", target_endian = "little"))]
use core::arch::aarch64::uint8x16_t as Raw;
#[cfg(all(target_arch = "x86_64", target_feature = "sse2"))]
use core::arch::x86_64::__m128i as Raw;

/// Only a name for 16 bytes.
#[cfg(not(any(
    all(target_arch = "aarch64", target_feature = "neon", target_endian = "little"),
    all(target_arch = "x86_64", target_feature = "sse2")
)))]
type Raw = u128;

/// Whether items are transposed in registers here, which are those of aarch64 (`neon`) and of x86-64 (`sse2`). No other processor
/// has [`MOVES_BYTES`]. Miri does not support assembly.
pub(crate) const USES_REGISTERS: bool = MOVES_BYTES
    && cfg!(all(any(target_feature = "neon", target_feature = "sse2"), target_endian = "little", not(miri)));

/// 16 bytes.
pub(crate) type Vector = MaybeUninit<Raw>;

/// 16 bytes, or with AVX 32.
#[cfg(all(target_arch = "x86_64", target_feature = "avx"))]
pub(super) type Widest = MaybeUninit<core::arch::x86_64::__m256i>;
#[cfg(not(all(target_arch = "x86_64", target_feature = "avx")))]
pub(super) type Widest = Vector;

/// 8 bytes. They are an integer, since a move of a float may change a NaN.
pub(super) type Word = MaybeUninit<u64>;

/// A register of items of `N` bytes.
#[derive(Clone, Copy)]
pub(crate) struct Items<const N: usize>(Vector);

/// Half a register, which stays there: its first 8 bytes or its last.
#[derive(Clone, Copy)]
pub(crate) struct Half {
    register: Vector,
    is_second: bool,
}

impl Half {
    /// The first half of a register that has no other bytes.
    #[inline(always)]
    fn of(word: Word) -> Self {
        let mut register = Vector::uninit();
        words_of(&mut register)[0] = word;
        Half { register, is_second: false }
    }

    #[inline(always)]
    fn word(mut self) -> Word {
        words_of(&mut self.register)[usize::from(self.is_second)]
    }
}

/// The two halves of a register.
#[inline(always)]
fn words_of(register: &mut Vector) -> &mut [Word; 2] {
    // SAFETY: they are the register's bytes, which may be unwritten, and need no greater alignment.
    unsafe { &mut *register.as_mut_ptr().cast() }
}

/// What a step reads or writes: half a register.
pub(crate) trait Run: Copy {
    /// How many bytes of a list it has.
    const BYTES: usize = size_of::<Self>();

    /// Reads it.
    ///
    /// # Safety
    ///
    /// `from` is valid for reads of [`Run::BYTES`] bytes.
    #[inline(always)]
    unsafe fn read(from: *const u8) -> Self {
        // SAFETY: this is what the caller promises. The bytes may be unwritten, which the types here may be, too: a `MaybeUninit`,
        // a register, which has only one, and `()`.
        unsafe { (*from.cast::<Unaligned<Self>>()).0 }
    }

    /// Writes it.
    ///
    /// # Safety
    ///
    /// `to` is valid for writes of [`Run::BYTES`] bytes.
    #[inline(always)]
    unsafe fn write(self, to: *mut u8) {
        // SAFETY: this is what the caller promises.
        unsafe { *to.cast() = Unaligned(self) }
    }

    /// Writes it by one instruction, for which its address has to be in a register.
    ///
    /// # Safety
    ///
    /// `to` is valid for writes of [`Run::BYTES`] bytes.
    #[inline(always)]
    unsafe fn write_from_register(self, to: *mut u8) {
        // SAFETY: this is what the caller promises.
        unsafe { self.write(to) }
    }
}

/// Registers whose halves are runs.
pub(crate) trait OfRuns<T>: registers::Register<T, Half: Run> {}

impl<T, D: registers::Register<T, Half: Run>> OfRuns<T> for D {}

impl Run for () {}

impl Run for Vector {}

impl<const N: usize> Run for Items<N> {}

impl Run for Half {
    const BYTES: usize = size_of::<Word>();

    #[inline(always)]
    unsafe fn read(from: *const u8) -> Self {
        // SAFETY: this is what the caller promises. The bytes may be unwritten, which a `MaybeUninit` may be, too.
        Half::of(unsafe { (*from.cast::<Unaligned<Word>>()).0 })
    }

    #[inline(always)]
    unsafe fn write(self, to: *mut u8) {
        // SAFETY: this is what the caller promises.
        unsafe { *to.cast() = Unaligned(self.word()) }
    }

    /// The compiler would move a second half to the first before it writes it, which is one more shuffle. No race detector sees
    /// assembly (`ordinary_stores`), and Miri does not support it.
    #[cfg(all(target_arch = "x86_64", target_feature = "sse2", not(ordinary_stores), not(miri)))]
    #[inline(always)]
    unsafe fn write_from_register(self, to: *mut u8) {
        if !self.is_second {
            // SAFETY: this is what the caller promises.
            return unsafe { self.write(to) };
        }
        // SAFETY: the one of these instructions that the processor has writes the last 8 bytes of a register to any address, and
        // does nothing else. The caller promises that they may be written there. They may be unwritten: no number is made of them.
        unsafe {
            #[cfg(not(target_feature = "avx"))]
            core::arch::asm!("movhps [{}], {}", in(reg) to, in(xmm_reg) self.register, options(nostack, preserves_flags));
            #[cfg(target_feature = "avx")]
            core::arch::asm!("vmovhps [{}], {}", in(reg) to, in(xmm_reg) self.register, options(nostack, preserves_flags));
        }
    }
}

/// Defines registers. A line has the bytes of an item and aarch64's name of such parts of a register. Then it has the name
/// of each function, and of its one instruction on x86-64 and on aarch64.
macro_rules! registers {
    ($($bytes:literal $parts:literal $($name:ident $x86:literal $arm:literal)*;)*) => {$(
        impl registers::Register<Bytes<$bytes>> for Items<$bytes> {
            type Half = Half;

            const SIDE: usize = Half::BYTES / $bytes;

            $(#[inline(always)]
            #[allow(unused)] // Without `USES_REGISTERS`, nothing is shuffled.
            fn $name(self, other: Self) -> Self {
                let (a, b, mut to) = (self.0, other.0, self.0);
                // SAFETY: the one of these instructions that the processor has reads two registers, writes one, and does
                // nothing else. Any 16 bytes are a register. With AVX it has three operands, because an older instruction is
                // slow if it comes between those of AVX.
                unsafe {
                    #[cfg(all(target_arch = "x86_64", target_feature = "sse2", not(target_feature = "avx")))]
                    core::arch::asm!(concat!($x86, " {}, {}"), inlateout(xmm_reg) to, in(xmm_reg) b,
                        options(pure, nomem, nostack, preserves_flags));
                    #[cfg(all(target_arch = "x86_64", target_feature = "avx"))]
                    core::arch::asm!(concat!("v", $x86, " {}, {}, {}"), lateout(xmm_reg) to, in(xmm_reg) a, in(xmm_reg) b,
                        options(pure, nomem, nostack, preserves_flags));
                    #[cfg(all(target_arch = "aarch64", target_feature = "neon", target_endian = "little"))]
                    core::arch::asm!(concat!($arm, " {0:v}.", $parts, ", {1:v}.", $parts, ", {2:v}.", $parts),
                        lateout(vreg) to, in(vreg) a, in(vreg) b, options(pure, nomem, nostack, preserves_flags));
                }
                Items(to)
            })*

            #[inline(always)]
            fn from_half(first: Half) -> Self {
                Items(Half::of(first.word()).register)
            }

            #[inline(always)]
            fn halves(self) -> (Half, Half) {
                let first = Half { register: self.0, is_second: false };
                (first, Half { is_second: true, ..first })
            }
        }

        impl registers::Paired<Bytes<$bytes>> for Items<$bytes> {}
    )*};
}

registers! {
    1 "16b" low "punpcklbw" "zip1" high "punpckhbw" "zip2";
    2 "8h" low "punpcklwd" "zip1" high "punpckhwd" "zip2";
    4 "4s" low "punpckldq" "zip1" high "punpckhdq" "zip2";
    8 "2d" low "punpcklqdq" "zip1" high "punpckhqdq" "zip2";
}

/// A register is an item of 16 bytes.
impl registers::Single<Bytes<16>> for Vector {}
