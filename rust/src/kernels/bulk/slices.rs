// rust/erase writes this file from crates/p3_util_fast/src/bulk/slices.rt. Make changes there.
//! How the holders of slices make many steps at once: runs of places are exchanged as slices, and the rows of a block
//! are read as slices.

use crate::kernels::bulk::{Ahead, Block, Blocked, Tiled};
use crate::kernels::places::{SliceCells, SlicePlaces, SliceSource, len_fits};
#[cfg(target_pointer_width = "32")]
use crate::width::Index as usize;

impl<'a, F> Tiled for SlicePlaces<'a, F> {
    #[inline(always)]
    fn exchange_runs(&mut self, i: usize, j: usize, len: usize) {
        exchange_runs_of_items(self.items, i, j, len);
    }
}

/// Exchanges two runs of `len` items: those from place `i` on and those from place `j` on.
#[inline(always)]
fn exchange_runs_of_items<F>(items: &mut [F], i: usize, j: usize, len: usize) {
    let (low, high) = (i.min(j), i.max(j));
    let (front, back) = items.split_at_mut(high as core::primitive::usize);
    front[low as core::primitive::usize..(low + len) as core::primitive::usize]
        .swap_with_slice(&mut back[..len as core::primitive::usize]);
}

impl<'a, T: Copy> Blocked for SliceCells<'a, T> {
    #[inline(always)]
    fn put_block<R: Ahead<Item = T>>(&mut self, source: &R, block: Block) {
        let items = match source.as_slice() {
            Some(items) if block.cols > 0 => items,
            _ => return self.put_block_singly(source, block),
        };
        match block.rows {
            16 => put_rows_apart::<16, _>(self.values, items, block),
            8 => put_rows_apart::<8, _>(self.values, items, block),
            4 => put_rows::<4, _>(self.values, items, block),
            2 => put_rows::<2, _>(self.values, items, block),
            1 => put_rows::<1, _>(self.values, items, block),
            _ => self.put_block_singly(source, block),
        }
    }
}

/// Does the same as [`put_rows`]. It is not inlined, so the compiler knows that the lists do not overlap.
#[inline(never)]
fn put_rows_apart<const ROWS: usize, T: Copy>(values: &mut [T], items: &[T], block: Block) {
    put_rows::<ROWS, _>(values, items, block);
}

/// Puts a block of `ROWS` rows, column after column. One test is made for each row and each column, and none for a
/// single item.
#[inline(always)]
fn put_rows<const ROWS: usize, T: Copy>(values: &mut [T], items: &[T], block: Block) {
    len_fits(items.len() as usize);
    let rows = rows_of::<ROWS, _>(items, block);
    for col in 0..block.cols {
        let at = block.to + col * block.height;
        put_column(&mut values[at as core::primitive::usize..(at + ROWS) as core::primitive::usize], &rows, col);
    }
}

/// An array whose first `ROWS` items are the rows of a block. The compiler knows that these slices have one length. The
/// checker takes no array of `ROWS` references, so the array has 16 items.
#[inline(always)]
fn rows_of<const ROWS: usize, T>(items: &[T], block: Block) -> [&[T]; 16] {
    let mut rows = [items; 16];
    for r in 0..ROWS {
        rows[r as core::primitive::usize] = &items[(block.from + r * block.width) as core::primitive::usize..]
            [..(block.cols) as core::primitive::usize];
    }
    rows
}

/// Puts item `col` of each of the first rows.
#[inline(always)]
fn put_column<T: Copy>(column: &mut [T], rows: &[&[T]], col: usize) {
    for r in 0..column.len() as usize {
        let row = rows[r as core::primitive::usize];
        column[r as core::primitive::usize] = row[col as core::primitive::usize];
    }
}

impl<'a, T: Copy> Ahead for SliceSource<'a, T> {
    #[inline(always)]
    fn as_slice(&self) -> Option<&[T]> {
        Some(self.slice)
    }
}
