// rust/erase writes this file from crates/p3_util_kernels/src/transpose/tile.rt. Make changes there.
//! A tile of 16 by 16 items, which is 16 blocks of 4 by 4 items. Each block is transposed by [`butterfly_4x4`].
//!
//! A *direct* tile puts each block straight into the output. A *buffered* tile collects its blocks in an array of 256
//! items, and then puts the 16 runs of 16 items that this array has.

use crate::kernels::places::{Cells, SliceCells, Source, Writes, len_fits};
use crate::kernels::transpose::butterfly::butterfly_4x4;
use crate::kernels::transpose::region::{Matrix, Region, put_plain};
#[cfg(target_pointer_width = "32")]
use crate::width::Index as usize;
use core::mem::size_of_val;

/// The number of rows and of columns of a tile.
pub(crate) const TILE_SIDE: usize = 16;

/// How the tiles of a region are put. The output is the same, but not the order of the puts.
#[derive(Clone, Copy)]
pub(crate) enum Tiles {
    /// Each block is put straight into the output.
    Direct,
    /// The blocks are collected in an array, whose items are put in runs of 16.
    Buffered,
}

/// Puts a tile. If its items are too long for an array of 256, it is copied plainly.
pub(crate) fn put_tile<R, C>(matrix: Matrix<R>, out: &mut Writes<C>, tile: Region, kind: Tiles)
where
    C: Cells,
    R: Source<Item = C::Item> + Copy,
{
    let place = place_in(matrix.source.len(), tile.row_start, tile.col_start, matrix.width);
    let first = matrix.source.at(place);
    if !fits_tile(&first) {
        put_plain(matrix, out, tile);
        return;
    }
    match kind {
        Tiles::Direct => put_direct(matrix, out, tile),
        Tiles::Buffered => put_buffered(matrix, out, tile),
    }
}

/// Whether 256 items like this one fit in an array. No item of a real program is so long that they do not.
pub(crate) fn fits_tile<T>(item: &T) -> bool {
    (size_of_val(item) as usize) < 1 << 32
}

/// The place of row `row` and column `col` in a list of `_len` items, in rows of `width` items.
pub(crate) fn place_in(_len: usize, row: usize, col: usize, width: usize) -> usize {
    row * width + col
}

/// The direct tile: each block is put straight into the output.
fn put_direct<R, C>(matrix: Matrix<R>, cells: &mut C, tile: Region)
where
    C: Cells,
    R: Source<Item = C::Item> + Copy,
{
    put_rows_of_blocks(matrix, cells, tile);
}

/// The buffered tile: its blocks are collected in an array, from which the runs are put.
fn put_buffered<R, C>(matrix: Matrix<R>, cells: &mut C, tile: Region)
where
    C: Cells,
    R: Source<Item = C::Item> + Copy,
{
    let buffer = read_tile(matrix, tile.row_start, tile.col_start);
    put_runs(matrix, cells, &buffer, tile);
}

/// Puts the 16 blocks of a tile, one row of blocks after another.
fn put_rows_of_blocks<R, C>(matrix: Matrix<R>, cells: &mut C, tile: Region)
where
    C: Cells,
    R: Source<Item = C::Item> + Copy,
{
    for k in 0..4 {
        let start = tile.row_start + 4 * k;
        let blocks = tile.with_rows(start, start + 4);
        put_row_of_blocks(matrix, cells, blocks);
    }
}

/// Puts four blocks that lie side by side, from left to right.
fn put_row_of_blocks<R, C>(matrix: Matrix<R>, cells: &mut C, blocks: Region)
where
    C: Cells,
    R: Source<Item = C::Item> + Copy,
{
    for k in 0..4 {
        let start = blocks.col_start + 4 * k;
        let block = blocks.with_cols(start, start + 4);
        put_block(matrix, cells, block);
    }
}

/// Puts a block of 4 by 4 items.
fn put_block<R, C>(matrix: Matrix<R>, cells: &mut C, block: Region)
where
    C: Cells,
    R: Source<Item = C::Item> + Copy,
{
    let (row, col) = (block.row_start, block.col_start);
    let turned = butterfly_4x4(read_block(matrix, row, col));
    for k in 0..4 {
        let column = row_of(turned, k);
        let to = place_in(cells.len(), col + k, row, matrix.height);
        put_run(cells, to, &column, 0, 4);
    }
}

/// The block that begins at row `row` and column `col`.
fn read_block<R: Source + Copy>(matrix: Matrix<R>, row: usize, col: usize) -> [[R::Item; 4]; 4] {
    [
        four_items(&matrix.source, row, col, matrix.width),
        four_items(&matrix.source, row + 1, col, matrix.width),
        four_items(&matrix.source, row + 2, col, matrix.width),
        four_items(&matrix.source, row + 3, col, matrix.width),
    ]
}

/// The four items of row `row` that begin at column `col`, in rows of `width` items.
fn four_items<R: Source>(input: &R, row: usize, col: usize, width: usize) -> [R::Item; 4] {
    let at = place_in(input.len(), row, col, width);
    [input.at(at), input.at(at + 1), input.at(at + 2), input.at(at + 3)]
}

/// Row `r` of a block. This is a function of its own, so that a proof can name the row.
fn row_of<T: Copy>(block: [[T; 4]; 4], r: usize) -> [T; 4] {
    block[r as core::primitive::usize]
}

/// Puts `count` items from index `from` on into the cells from `to` on.
fn put_run<C: Cells>(cells: &mut C, to: usize, items: &[C::Item], from: usize, count: usize) {
    len_fits(cells.len());
    len_fits(items.len() as usize);
    for t in 0..count {
        cells.put(to + t, items[(from + t) as core::primitive::usize]);
    }
}

/// Puts a tile from `buffer`, which has its items column after column, in 16 runs of 16 items.
fn put_runs<R, C>(matrix: Matrix<R>, cells: &mut C, buffer: &[C::Item], tile: Region)
where
    C: Cells,
    R: Source<Item = C::Item> + Copy,
{
    for k in 0..TILE_SIDE {
        let to = place_in(cells.len(), tile.col_start + k, tile.row_start, matrix.height);
        put_run(cells, to, buffer, k * TILE_SIDE, TILE_SIDE);
    }
}

/// The items of the tile that begins at row `row` and column `col`, column after column.
fn read_tile<R: Source + Copy>(matrix: Matrix<R>, row: usize, col: usize) -> [R::Item; 256] {
    let from = place_in(matrix.source.len(), row, col, matrix.width);
    let rest = Rest { source: &matrix.source, from };
    collect_tile(&rest, matrix.width)
}

/// The items of a source from index `from` on.
#[derive(Clone, Copy)]
struct Rest<'a, R> {
    source: &'a R,
    from: usize,
}

impl<'a, R: Source> Source for Rest<'a, R> {
    type Item = R::Item;

    fn len(&self) -> usize {
        self.source.len().saturating_sub(self.from)
    }

    fn at(&self, i: usize) -> R::Item {
        len_fits(self.source.len());
        self.source.at(self.from + i)
    }
}

/// The items of the tile that begins with the first item of `input`, column after column.
fn collect_tile<R: Source>(input: &R, width: usize) -> [R::Item; 256] {
    let mut buffer = [input.at(0); 256];
    fill_tile(input, &mut buffer, width);
    buffer
}

/// Puts the items of that tile into a buffer.
fn fill_tile<R: Source>(input: &R, buffer: &mut [R::Item], width: usize) {
    let tile = Region { row_start: 0, row_end: TILE_SIDE, col_start: 0, col_end: TILE_SIDE };
    let rows = Matrix::new(input, width, TILE_SIDE);
    put_rows_of_blocks(rows, &mut SliceCells::new(buffer), tile);
}
