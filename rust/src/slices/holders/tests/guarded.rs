//! Tests that a step touches only its own places, for items of many sizes. Each run of places that a step may touch
//! begins where a page begins or ends where a page ends, and the pages around it cannot be read. So a step that touches a
//! place next to a run ends the test program.

use std::array::from_fn;
use std::ptr::null_mut;

use super::super::{Bytes, Run, SliceItems, SliceSource};
use crate::kernels::bulk::{Ahead, Block, Tiled};
use crate::kernels::places::{Cells, Places, Source};
use crate::kernels::registers::Register;
use crate::kernels::registers::blocks::SquaresOfCells;
use crate::slices::parts::{TransposePart, transpose};
use crate::slices::tests::*;

unsafe extern "C" {
    fn mmap(address: *mut u8, len: usize, protection: i32, flags: i32, file: i32, offset: i64) -> *mut u8;
    fn mprotect(address: *mut u8, len: usize, protection: i32) -> i32;
    fn munmap(address: *mut u8, len: usize) -> i32;
}

const UNREADABLE: i32 = 0;
const READ_AND_WRITE: i32 = 3;
const PRIVATE_AND_ANONYMOUS: i32 = 0x22;

/// The size of a page here, a multiple of that of the processor. A run has at most this many bytes.
const PAGE: usize = 1 << 16;

/// The distance of the first places of two runs. It is two pages or more.
const GAP: usize = 2 * PAGE;

/// A list of items of `N` bytes, of which only `runs` runs of `len` places can be read and written.
struct Runs<const N: usize> {
    memory: *mut u8,
    first: *mut [u8; N],
    runs: usize,
    len: usize,
}

impl<const N: usize> Runs<N> {
    fn new(runs: usize, len: usize, ends_with_page: bool) -> Self {
        // SAFETY: each run lies in a page of its own of the new memory, which is made readable first. A page before the
        // first run stays unreadable.
        unsafe {
            let memory = mmap(null_mut(), Self::bytes(runs), UNREADABLE, PRIVATE_AND_ANONYMOUS, -1, 0);
            let start = memory.add(PAGE);
            for run in 0..runs {
                assert_eq!(mprotect(start.add(GAP * N * run), PAGE, READ_AND_WRITE), 0);
            }
            let first = start.add(if ends_with_page { PAGE - N * len } else { 0 }).cast();
            let list = Runs { memory, first, runs, len };
            for (run, k) in list.places() {
                list.first.add(GAP * run + k).write(Self::item(run, k));
            }
            list
        }
    }

    fn bytes(runs: usize) -> usize {
        PAGE + GAP * N * runs
    }

    /// Item `k` of a run. Two items of the first 16 runs differ if `k` is below 16.
    fn item(run: usize, k: usize) -> [u8; N] {
        from_fn(|byte| (16 * run + k) as u8 ^ (37 * byte + k / 16) as u8)
    }

    fn places(&self) -> impl Iterator<Item = (usize, usize)> + use<N> {
        let len = self.len;
        (0..self.runs).flat_map(move |run| (0..len).map(move |k| (run, k)))
    }

    /// The list as a slice, of which a holder uses only the pointer and the length.
    fn list(&mut self) -> &mut [[u8; N]] {
        // SAFETY: the list lies in the memory.
        unsafe { core::slice::from_raw_parts_mut(self.first, GAP * (self.runs - 1) + self.len) }
    }

    /// Compares the item at each place of a run with the one that was at the place `wanted` in the beginning.
    fn has(&self, wanted: impl Fn(usize, usize) -> (usize, usize)) {
        for (run, k) in self.places() {
            let (from, of) = wanted(run, k);
            // SAFETY: this is a place of a run.
            let got = unsafe { self.first.add(GAP * run + k).read() };
            assert_eq!(got, Self::item(from, of), "run {run}, place {k} of {}, items of {N} bytes", self.len);
        }
    }
}

impl<const N: usize> Drop for Runs<N> {
    fn drop(&mut self) {
        // SAFETY: this is the memory that `new` asked for.
        unsafe { munmap(self.memory, Self::bytes(self.runs)) };
    }
}

/// Makes each kind of step with runs at both ends of pages.
fn steps<const N: usize>() {
    for ends_with_page in [false, true] {
        let mut two = Runs::<N>::new(2, 1, ends_with_page);
        SliceItems::new(two.list()).exchange(0, GAP);
        two.has(|run, k| (1 - run, k));
        SliceItems::new(two.list()).exchange(GAP, 0);
        two.has(|run, k| (run, k));
        SliceItems::new(two.list()).exchange(GAP, GAP);
        two.has(|run, k| (run, k));
        let put = SliceSource::new(two.list()).at(GAP);
        SliceItems::new(two.list()).put(0, put);
        two.has(|_, k| (1, k));

        for len in (1..=17).chain([33, 100]) {
            let mut runs = Runs::<N>::new(2, len, ends_with_page);
            SliceItems::new(runs.list()).exchange_runs(0, GAP, len);
            runs.has(|run, k| (1 - run, k));
            let mut bytes: SliceItems<Bytes<1>> = SliceItems::new(runs.list()).in_bytes();
            bytes.exchange_runs(GAP * N, 0, len * N);
            runs.has(|run, k| (run, k));
        }

        of_each_holder!([u8; N], Holder => squares::<N, Holder>(ends_with_page));
    }
}

/// Exchanges and transposes tiles, and puts blocks.
fn squares<const N: usize, H: Put<[u8; N]>>(ends_with_page: bool) {
    let mut tiles = Runs::<N>::new(16, 8, ends_with_page);
    let row = |number: usize| number * 7 % 16;
    let (x, y) = (from_fn(|r| GAP * row(r)), from_fn(|r| GAP * row(8 + r)));
    H::hold(tiles.list()).exchange_tiles(x, y);
    tiles.has(|run, k| match (0..16).find(|number| row(*number) == run) {
        Some(number) if number < 8 => (row(8 + k), number),
        number => (row(k), number.unwrap() - 8),
    });
    hints_of_tiles::<N, H>(ends_with_page);

    let mut tile = Runs::<N>::new(8, 8, ends_with_page);
    H::hold(tile.list()).turn_tile(from_fn(|r| GAP * r));
    tile.has(|run, k| (k, run));

    for side in [1, 2, 3, 4, 5, 8, 16] {
        let mut source = Runs::<N>::new(side, side, ends_with_page);
        let mut cells = Runs::<N>::new(side, side, ends_with_page);
        put_block::<_, H>(cells.list(), source.list(), block([side, side], [0, GAP], [0, GAP]));
        cells.has(|run, k| (k, run));
        source.has(|run, k| (run, k));
    }
    if let 4 | 8 | 16 = N {
        columns_off_a_line::<N>(ends_with_page, put_block::<_, H>);
    }
}

/// In a list that does not fit in a cache, tiles are fetched early. That may read no place, since these cannot be read.
fn hints_of_tiles<const N: usize, H: for<'a> Hold<'a, [u8; N]>>(ends_with_page: bool) {
    let mut far = Runs::<N>::new(1 + (1_usize << 23).div_ceil(GAP * N), 1, ends_with_page);
    let list = far.list();
    let outside = [1, list.len(), list.len() - GAP / 2, usize::MAX / N - 7];
    for first in outside {
        H::hold(list).expect_tiles(from_fn(|row| first + row), from_fn(|row| first.wrapping_sub(row)));
    }
}

/// Puts single columns that are no whole cache line, and one that is, but after whose last row the source ends. They are put
/// item by item, so no item to the right of one is read.
fn columns_off_a_line<const N: usize>(ends_with_page: bool, put: impl Fn(&mut [[u8; N]], &[[u8; N]], Block)) {
    let line = 64 / N;
    let more_rows = (1..line).map(|to| (line, to, 1)).chain([(line - 1, 0, 1), (line + 1, 0, 1)]);
    for (rows, to, more) in more_rows.chain([(line, 0, 0)]) {
        let mut source = Runs::<N>::new(rows + more, 1, ends_with_page);
        let mut cells = Runs::<N>::new(1, 2 * line, false);
        put(cells.list(), source.list(), block([rows, 1], [0, GAP], [to, 2 * line]));
        cells.has(|_, k| match k.checked_sub(to) {
            Some(row) if row < rows => (row, 0),
            _ => (0, k),
        });
    }
}

/// Puts a block of whole cache lines past the caches, and a single column of it, of which each row is read from the column on.
fn lines<const N: usize, D: Register<Bytes<N>, Half: Run>>(ends_with_page: bool) {
    let rows = 64 / N;
    for cols in [1, rows] {
        let mut source = Runs::<N>::new(rows, cols.max(16 / N), ends_with_page);
        let mut cells = Runs::<N>::new(cols, rows, ends_with_page);
        put_past_caches::<N, D>(cells.list(), source.list(), block([rows, cols], [0, GAP], [0, GAP]));
        cells.has(|run, k| (k, run));
        source.has(|run, k| (run, k));
    }
    columns_off_a_line(ends_with_page, put_past_caches::<N, D>);
}

#[test]
fn lines_touch_their_places_alone() {
    for ends_with_page in [false, true].into_iter().filter(|_| USES_REGISTERS) {
        lines::<4, Pair<Items<4>>>(ends_with_page);
        lines::<8, Pair<Items<8>>>(ends_with_page);
        lines::<16, Two<Vector>>(ends_with_page);
    }
}

/// Transposes whole matrices, all of whose items can be read or written, but nothing beside them. Those of 4, 8 and 16 bytes are put
/// by lines in lists of 1024 bytes and more.
#[test]
fn transposes_touch_their_lists_alone() {
    fn transposes<const N: usize>() {
        let shapes = [(19, 37), (16, 64), (40, 17), (3, 131), (17, 32), (13, 17)].into_iter();
        for ((width, height), ends_with_page) in shapes.flat_map(|shape| [(shape, false), (shape, true)]) {
            let len = width * height;
            let mut source = Runs::<N>::new(1, len, ends_with_page);
            for parts in 0..3 {
                let mut cells = Runs::<N>::new(1, len, ends_with_page);
                match parts {
                    0 => crate::slices::transpose(source.list(), cells.list(), width, height),
                    _ => transpose(source.list(), cells.list(), width, height, 2 * parts).for_each(TransposePart::run),
                }
                cells.has(|_, k| (0, transposed(width, height, k)));
            }
        }
    }
    transposes::<1>();
    transposes::<2>();
    transposes::<4>();
    transposes::<8>();
    transposes::<16>();
    transposes::<32>();
    transposes::<64>();
}

/// A hint reads nothing: here no address that it names can be read, and the others are in no list.
#[test]
fn hints_read_nothing() {
    let mut runs = Runs::<4>::new(2, 1, true);
    let source = SliceSource::new(runs.list());
    for i in [1, GAP - 1, GAP + 1, 2 * GAP, usize::MAX / 4, usize::MAX] {
        source.expect(i);
    }
    // The cells right of the last column, and below its last row, are in no list either.
    for (to, height) in [(0, 1), (1, GAP), (GAP, 0), (GAP, GAP), (GAP - 3, 1), (GAP - 12, 4)] {
        SliceItems::new(runs.list()).expect_columns(block([4, 4], [0, 4], [to, height]));
    }
}

#[test]
fn steps_touch_their_places_alone() {
    macro_rules! sizes {
        ($($size:literal)*) => { $(steps::<$size>();)* };
    }
    sizes!(1 2 3 4 5 6 7 8 9 12 15 16 20 24 28 32 36 40 44 48 52 56 60 64 65 80);
}
