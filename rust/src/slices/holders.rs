//! Holders of slices, which check no index except with debug assertions. A holder may do to the items of its slice what
//! a step of `Places`, `Cells` or `Source` says. It trusts that each call of a step meets the step's precondition. The
//! kernels are proved to do so. Only this folder can make a holder.
//!
//! With debug assertions, an item is moved as its type says, and there is no `compiler_fence`. Often such a build is not
//! optimized. Then parts of an item and fences would take several times as long, and so would `add`, which is a call there.

use core::marker::PhantomData;
use core::ptr;
use core::slice::from_raw_parts;
use core::sync::atomic::{Ordering, compiler_fence};

pub(super) use self::SliceItems as WholeList;
pub(super) use bytes::{Bytes, MOVES_BYTES};
use bytes::{move_bytes, swap_bytes, write_item};
pub(crate) use registers::USES_REGISTERS;
pub(super) use registers::{Items, OfRuns, Run, Vector};

use crate::kernels::bulk::{Ahead, Block, Blocked, Tiled};
use crate::kernels::calls::{LINE, Output};
use crate::kernels::lines::Lines;
use crate::kernels::parts::Shared;
use crate::kernels::places::{Cells, Places, Source};
use crate::kernels::registers::blocks::{self, LinesOfCells, RunsOfCells, SquaresOfCells};
use crate::kernels::registers::tiles::{self, RunsOfPlaces};
use crate::kernels::registers::{Loads, Register, Runs, Single, Two};
use crate::kernels::transpose::{Matrix, Region};
use crate::kernels::ways::PutRegion;

mod bytes;
mod cache;
pub(super) mod registers;
#[cfg(all(test, not(miri)))]
mod tests;

/// The items of a slice, as places or as cells, for one kernel or for one part.
///
/// Other parts of a call may have such a holder of the same list at the same time. So no function of this type
/// makes a reference to the whole list, or to a place or a run that it does not change. A reference to something
/// that another part changes is undefined behaviour, even if nothing is read through the reference.
///
/// Tiles and blocks of items are transposed in registers `D`, each of which is two rows of a square, if these have more than
/// one item.
///
/// If `PAST_CACHES` is true, whole cache lines are stored past the caches. [`SliceItems::put_past_caches`] makes such a holder, and a
/// fence follows.
pub(super) struct SliceItems<'a, T, D = Two<()>, const PAST_CACHES: bool = false> {
    first: *mut T,
    len: usize,
    slice: PhantomData<(&'a mut [T], D)>,
}

/// No register: items are moved one by one.
impl<T> Single<T> for () {}

// SAFETY: a holder that parts share is made from a `&mut [T]`, and may do to the items only what that reference may do. No two
// parts change the same place. A holder of bytes is `Send` and `Sync` even if the items are not, but it never leaves the call or
// the part that makes it.
unsafe impl<T: Send> Send for SliceItems<'_, T> {}

// SAFETY: a method that takes a `&SliceItems` writes nothing, and what it reads is `T`, which is `Sync`. So the same parts are
// `Sync` as with the feature `checked`.
unsafe impl<T: Sync> Sync for SliceItems<'_, T> {}

impl<'a, T, D, const PAST_CACHES: bool> SliceItems<'a, T, D, PAST_CACHES> {
    /// The `len` items from `first` on. Whoever uses the holder has borrowed them.
    #[inline(always)]
    fn of(first: *mut T, len: usize) -> Self {
        SliceItems { first, len, slice: PhantomData }
    }

    /// The same items, of which tiles are exchanged. This holder has no registers of its own, so it stores a half by [`Run::write`],
    /// whose addresses are parts of the instructions. By [`Run::write_from_register`] this would take more instructions, since two
    /// tiles have more rows than the processor has registers for their addresses.
    #[inline(always)]
    fn places(&mut self) -> SliceItems<'_, T> {
        SliceItems::of(self.first, self.len)
    }
}

impl<'a, T> SliceItems<'a, T> {
    #[inline(always)]
    pub(super) fn new(slice: &'a mut [T]) -> Self {
        // The length is read first: reading it through the reference after the pointer was taken from it would end what
        // the pointer may do.
        let len = slice.len();
        SliceItems::of(slice.as_mut_ptr(), len)
    }

    /// The items, for several parts. Each part gets a share, and every share is the whole list.
    pub(super) fn in_shares(slice: &'a mut [T], _: usize) -> Self {
        SliceItems::new(slice)
    }

    /// The bytes of the items, `N` at a time. The type of the holder says in which registers they are transposed. Only tests ask for
    /// one that stores past the caches.
    #[inline(always)]
    pub(super) fn in_bytes<const N: usize, D, const PAST: bool>(self) -> SliceItems<'a, Bytes<N>, D, PAST> {
        // This many groups of `N` bytes are within the slice. `SliceItems` borrows it for as long as it is borrowed.
        SliceItems::of(self.first.cast(), self.len * size_of::<T>() / N)
    }
}

impl<T> Shared for SliceItems<'_, T> {
    /// The same items. No two parts of a call change the same place.
    fn share(&mut self) -> Self {
        SliceItems { ..*self }
    }
}

impl<T: Copy, D: OfRuns<T>> Output for SliceItems<'_, T, D> {
    const SIZE: usize = size_of::<T>();
    const IS_INLINED: bool = cfg!(not(debug_assertions));
    const TESTS_INDICES: bool = false;
    const HAS_REGISTERS: bool = USES_REGISTERS;
    const IS_X86_64: bool = cfg!(target_arch = "x86_64");

    /// In the tests of this crate, short lists go past the caches too.
    #[cfg(test)]
    fn limits() -> crate::kernels::choice::Limits {
        crate::kernels::choice::Limits { list: 1 << 10, side: 1 }
    }

    fn address(&self) -> usize {
        self.first.addr()
    }

    #[inline]
    fn copy<R: Ahead<Item = T> + Copy>(self, source: R) -> Self {
        let items = source.as_slice().expect("a whole slice");
        debug_assert!(self.len == items.len());
        // SAFETY: both lists have this length, and the source is borrowed as long as it is read.
        unsafe { ptr::copy_nonoverlapping(items.as_ptr(), self.first, items.len()) }
        self
    }

    #[inline(always)]
    fn put_past_caches<R: Ahead<Item = T> + Copy>(self, lines: Lines, matrix: Matrix<R>, region: Region) -> Self {
        let cells = lines.put(SliceItems::<T, D, true>::of(self.first, self.len), matrix, region);
        cache::fence();
        SliceItems::of(cells.first, cells.len)
    }
}

impl<F, D: Register<F>> Places for SliceItems<'_, F, D> {
    type Item = F;

    fn len(&self) -> usize {
        self.len
    }

    #[inline(always)]
    fn exchange(&mut self, i: usize, j: usize) {
        debug_assert!(i < self.len && j < self.len);
        // SAFETY: both places are within the slice, by `first` and `second` of `Places::exchange`. They may be one: items
        // and parts of items are both read before they are written.
        unsafe {
            let (x, y) = (self.first.wrapping_add(i), self.first.wrapping_add(j));
            if const { size_of::<F>() < 48 || cfg!(debug_assertions) && size_of::<F>() <= 64 } {
                // Both fit in registers.
                let (of_x, of_y) = (ptr::read(x), ptr::read(y));
                write_item(y, of_x);
                write_item(x, of_y);
            } else if MOVES_BYTES && cfg!(not(debug_assertions)) {
                // Longer items go through registers part by part.
                move_bytes::<true>(x.cast(), y.cast(), 0, size_of::<F>());
            } else if cfg!(debug_assertions) {
                // With debug assertions, items are moved as their type says.
                ptr::swap(x, y);
            } else if x != y {
                // This needs no room for an item on the stack, unlike `ptr::swap`.
                ptr::swap_nonoverlapping(x, y, 1);
            }
        }
        // Without this fence, which has no effect on the processor, the compiler would make one permutation in vector registers
        // of the exchanges of a small list. That takes twice as long with AVX-512.
        if size_of::<F>() <= 8 && cfg!(not(debug_assertions)) {
            compiler_fence(Ordering::SeqCst);
        }
    }
}

/// With debug assertions, functions that use registers have frames of their own: there a register is on the stack in each
/// function that it goes through.
impl<F, D: OfRuns<F>> Tiled for SliceItems<'_, F, D> {
    #[inline(always)]
    fn exchange_runs(&mut self, i: usize, j: usize, len: usize) {
        let n = self.len;
        debug_assert!(len <= n && i <= n - len && j <= n - len && i.abs_diff(j) >= len);
        // SAFETY: both runs are within the slice, by the clauses `first` and `second` of `Tiled::exchange_runs`,
        // and do not overlap, by `apart`.
        unsafe {
            let (x, y) = (self.first.add(i), self.first.add(j));
            if MOVES_BYTES && cfg!(not(debug_assertions)) {
                swap_bytes(x.cast(), y.cast(), len * size_of::<F>());
            } else {
                ptr::swap_nonoverlapping(x, y, len);
            }
        }
    }

    #[cfg_attr(debug_assertions, inline(never))]
    #[cfg_attr(not(debug_assertions), inline(always))]
    fn exchange_tiles(&mut self, x: [usize; 8], y: [usize; 8]) {
        tiles::exchange_both::<F, D, _>(&mut self.places(), x, y);
    }

    #[cfg_attr(debug_assertions, inline(never))]
    #[cfg_attr(not(debug_assertions), inline(always))]
    fn turn_tile(&mut self, x: [usize; 8]) {
        tiles::turn::<F, D, _>(&mut self.places(), x);
    }

    /// Prefetches the cache lines of both tiles if the list does not fit in a cache. The places may be outside. No
    /// reference is made to them.
    #[inline(always)]
    fn expect_tiles(&self, x: [usize; 8], y: [usize; 8]) {
        let size = size_of::<F>();
        // Items of 1 byte take no less time if they are fetched early. Tiles of large items fill a cache. A list of fewer than
        // 2^23 bytes fits in one.
        if !(2..=128).contains(&size) || self.len * size < 1 << 23 {
            return;
        }
        for row in x.into_iter().chain(y) {
            let row = self.first.wrapping_add(row).cast::<u8>();
            for byte in (0..8 * size).step_by(LINE) {
                cache::prefetch(row.wrapping_add(byte));
            }
            // A row seldom begins at the start of a line, so its end is in one line more. Without that line, items
            // of 4 bytes would take longer than without any prefetch.
            cache::prefetch(row.wrapping_add(8 * size - 1));
        }
    }
}

impl<F, D: OfRuns<F>> RunsOfPlaces<F, D> for SliceItems<'_, F> {}

impl<T: Copy, D: Register<T>, const PAST_CACHES: bool> Cells for SliceItems<'_, T, D, PAST_CACHES> {
    type Item = T;

    fn len(&self) -> usize {
        self.len
    }

    #[inline(always)]
    fn put(&mut self, i: usize, v: T) {
        debug_assert!(i < self.len);
        let cell = self.first.wrapping_add(i);
        // SAFETY: the cell is within the slice, by the `requires` of `Cells::put`.
        unsafe {
            if cfg!(debug_assertions) {
                return *cell = v;
            }
            write_item(cell, v);
        }
        // Without this fence, which has no effect on the processor, the compiler would read eight items, of eight rows, before it
        // writes them. For AVX-512 it would make one gather of these reads, which takes two to four times as long for items of 4
        // and 8 bytes. Without AVX-512, items of 16 bytes take less time without the fence.
        if size_of::<T>() != 16 || cfg!(target_feature = "avx512f") {
            compiler_fence(Ordering::SeqCst);
        }
    }
}

impl<T: Copy, D: OfRuns<T>, const PAST_CACHES: bool> Blocked for SliceItems<'_, T, D, PAST_CACHES> {
    #[cfg_attr(debug_assertions, inline(never))]
    #[cfg_attr(not(debug_assertions), inline(always))]
    fn put_block<R: Ahead<Item = T>>(&mut self, source: &R, block: Block) {
        let runs = SliceSource::new(source.as_slice().expect("a whole slice"));
        if PAST_CACHES {
            blocks::put_block_in_lines(self, &runs, source, block);
        } else {
            blocks::put_block_in_squares(self, &runs, source, block);
        }
    }
}

impl<T: Copy, D: OfRuns<T>, const PAST_CACHES: bool> RunsOfCells<T, D> for SliceItems<'_, T, D, PAST_CACHES> {}

impl<T: Copy, D: OfRuns<T>, const PAST_CACHES: bool> SquaresOfCells<T, D> for SliceItems<'_, T, D, PAST_CACHES> {
    const SQUARE: usize = <SliceItems<T, D> as Output>::SIDE;

    /// Prefetches the next cache line of each column of a square of 4 by 4. The processor makes its stores in order, so a store
    /// that waits for its cache line delays all stores after it. The places may be outside. No reference is made to them.
    #[inline(always)]
    fn expect_columns(&self, square: Block) {
        let size = size_of::<T>();
        // The stores of shorter items are too small and too many: in a cache, the hints would take longer.
        if size < 4 || cfg!(debug_assertions) {
            return;
        }
        // With `opt-level = "s"` a loop would not be unrolled, and with "z" a closure would not be inlined.
        let (next, height) = (self.first.wrapping_add(square.to.wrapping_add(LINE / size)), square.height);
        cache::prefetch(next);
        cache::prefetch(next.wrapping_add(height));
        cache::prefetch(next.wrapping_add(height.wrapping_mul(2)));
        cache::prefetch(next.wrapping_add(height.wrapping_mul(3)));
    }
}

/// Whether half a register `D` has the bytes of a run, so that a step reads or writes all of the run and nothing else. The half
/// `()` has no bytes: with it, a step would do nothing, and a kernel makes none. Its squares have one row, and it fills no line.
const fn fills_a_run<T, D: OfRuns<T>>() -> bool {
    D::Half::BYTES == D::SIDE * size_of::<T>() || D::Half::BYTES == 0
}

/// Runs of the items, which fill half a register `D`. Here a run `may` be read and written if all of it is among the places
/// of the step that is made, which are within the list by the precondition of the step's method. A holder with
/// `PAST_CACHES` `may_stream` it if it also begins at a multiple of 16 bytes, and a fence follows before the call or the part
/// ends. A run of a source `may` be anywhere in the list. The functions of `kernels::registers` are proved to touch no other
/// run, whatever `may` and `may_stream` are. So that method may call them if it names no place but those of its step, and no
/// run that ends after the source.
impl<T, E, D: OfRuns<T>, const PAST_CACHES: bool> Loads<T, D> for SliceItems<'_, T, E, PAST_CACHES> {
    #[inline(always)]
    fn load(&self, place: usize) -> D::Half {
        const { assert!(fills_a_run::<T, D>()) }
        debug_assert!(place <= self.len && D::SIDE <= self.len - place);
        // SAFETY: the run `may` be read, by the `requires` of `Loads::load`, and the half has as many bytes.
        unsafe { D::Half::read(self.first.wrapping_add(place).cast()) }
    }
}

impl<T, E, D: OfRuns<T>, const PAST_CACHES: bool> Runs<T, D> for SliceItems<'_, T, E, PAST_CACHES> {
    #[inline(always)]
    fn store(&mut self, place: usize, run: D::Half) {
        const { assert!(fills_a_run::<T, D>()) }
        debug_assert!(place <= self.len && D::SIDE <= self.len - place);
        // SAFETY: the run `may` be written, by the `requires` of `Runs::store`, and the half has as many bytes, which are those of
        // items.
        unsafe {
            let to = self.first.wrapping_add(place).cast();
            // Without registers of its own, the holder is one of `SliceItems::places`.
            if const { size_of::<E>() > 0 } {
                run.write_from_register(to);
            } else {
                run.write(to);
            }
        }
    }

    /// Writes a register past the caches: its cache line is not read first. `_mm_stream_si128` takes a number, whose bytes all have
    /// to be written, and those of padding are not. No race detector sees assembly, so `rust/test` makes ordinary stores for one
    /// (`ordinary_stores`).
    #[cfg(all(target_arch = "x86_64", target_feature = "sse2", not(ordinary_stores)))]
    #[inline(always)]
    fn stream(&mut self, place: usize, run: D::Half) {
        if const { !PAST_CACHES || D::Half::BYTES != 16 } {
            return Runs::<T, D>::store(self, place, run);
        }
        let to = self.first.wrapping_add(place);
        debug_assert!(place <= self.len && D::SIDE <= self.len - place && to.addr() % 16 == 0);
        // SAFETY: a run is a register here. The holder `may_stream` it, by the `requires` of `Runs::stream`: `may_stream_lines` tests
        // its address.
        unsafe {
            let run: Vector = core::mem::transmute_copy(&run);
            core::arch::asm!("movntdq [{}], {}", in(reg) to, in(xmm_reg) run, options(nostack, preserves_flags))
        }
    }
}

impl<T: Copy, D: OfRuns<T>, const PAST_CACHES: bool> LinesOfCells<T, D> for SliceItems<'_, T, D, PAST_CACHES> {
    /// Each column of the block has to be a line of the output. It has four runs, by the `requires` of this method.
    #[inline(always)]
    fn may_stream_lines(&self, block: Block) -> bool {
        let first = self.first.wrapping_add(block.to).addr();
        let distance = block.height.wrapping_mul(size_of::<T>()) * usize::from(block.cols > 1);
        4 * D::Half::BYTES == LINE && (first | distance) % LINE == 0
    }
}

/// The items of a slice, which are only read.
#[derive(Clone, Copy)]
pub(super) struct SliceSource<'a, T>(&'a [T]);

impl<'a, T: Copy> SliceSource<'a, T> {
    pub(super) fn new(items: &'a [T]) -> Self {
        SliceSource(items)
    }

    #[inline(always)]
    pub(super) fn in_bytes<const N: usize>(self) -> SliceSource<'a, Bytes<N>> {
        // SAFETY: this many groups of `N` bytes are within the slice. No item changes as long as the slice is
        // borrowed, because a `Copy` type has no `UnsafeCell`.
        SliceSource::new(unsafe { from_raw_parts(self.0.as_ptr().cast(), size_of_val(self.0) / N) })
    }
}

impl<T: Copy> Source for SliceSource<'_, T> {
    type Item = T;

    fn len(&self) -> usize {
        self.0.len()
    }

    #[inline(always)]
    fn at(&self, i: usize) -> T {
        if cfg!(debug_assertions) {
            return self.0[i];
        }
        // SAFETY: the index is within the slice, by the `requires` of `Source::at`.
        unsafe { *self.0.get_unchecked(i) }
    }
}

impl<T: Copy> Ahead for SliceSource<'_, T> {
    #[inline(always)]
    fn as_slice(&self) -> Option<&[T]> {
        Some(self.0)
    }

    #[inline(always)]
    fn expect(&self, i: usize) {
        cache::prefetch(self.0.as_ptr().wrapping_add(i));
    }
}

impl<T, D: OfRuns<T>> Loads<T, D> for SliceSource<'_, T> {
    #[inline(always)]
    fn load(&self, place: usize) -> D::Half {
        const { assert!(fills_a_run::<T, D>()) }
        debug_assert!(place <= self.0.len() && D::SIDE <= self.0.len() - place);
        // SAFETY: as for `SliceItems`.
        unsafe { D::Half::read(self.0.as_ptr().wrapping_add(place).cast()) }
    }
}
