// rust/erase writes this file from crates/p3_util_kernels/src/transpose/region.rt. Make changes there.
//! Regions of a matrix, and the transpose of one region.
//!
//! A region of r rows and c columns has `r / 16` rows of `c / 16` whole tiles. They are put first, from left to right
//! and then from top to bottom. The columns to the right of them are the *right edge*, and the rows below them the
//! *bottom edge*. The *corner* lies both below and to the right. These three are copied plainly: column after column,
//! with one put for each item.

use crate::kernels::places::{Cells, SliceSource, Source, Writes};
use crate::kernels::transpose::tile::{TILE_SIDE, Tiles, place_in, put_tile};
#[cfg(target_pointer_width = "32")]
use crate::width::Index as usize;

/// A matrix of `height` rows of `width` items. The items are in `source`, row after row.
#[derive(Clone, Copy)]
pub(crate) struct Matrix<R> {
    pub source: R,
    pub width: usize,
    pub height: usize,
}

impl<R> Matrix<R> {
    /// The matrix of `height` rows of `width` items that `source` holds.
    #[inline(always)]
    pub(crate) fn new(source: R, width: usize, height: usize) -> Self {
        Matrix { source, width, height }
    }

    /// The region that is the whole matrix.
    #[inline(always)]
    pub(crate) fn whole(&self) -> Region {
        Region { row_start: 0, row_end: self.height, col_start: 0, col_end: self.width }
    }
}

/// A rectangle in a matrix: the items that lie in the rows `row_start..row_end` and in the columns
/// `col_start..col_end`.
#[derive(Clone, Copy, Debug, PartialEq, Eq)]
pub struct Region {
    /// The first row.
    pub row_start: usize,
    /// The row after the last one.
    pub row_end: usize,
    /// The first column.
    pub col_start: usize,
    /// The column after the last one.
    pub col_end: usize,
}

impl Region {
    /// Whether the region lies in a matrix of `height` rows of `width` items: `row_start <= row_end <= height` and
    /// `col_start <= col_end <= width`.
    ///
    /// This tests the precondition that the calls on a region have in common.
    #[inline]
    #[must_use]
    pub const fn fits(self, width: usize, height: usize) -> bool {
        self.row_start <= self.row_end
            && self.row_end <= height
            && self.col_start <= self.col_end
            && self.col_end <= width
    }

    /// The number of rows.
    #[inline(always)]
    pub(crate) fn rows(self) -> usize {
        self.row_end - self.row_start
    }

    /// The number of columns.
    #[inline(always)]
    pub(crate) fn cols(self) -> usize {
        self.col_end - self.col_start
    }

    /// The region with the same columns and with the rows `start..end` of the matrix.
    #[inline(always)]
    pub(crate) fn with_rows(self, start: usize, end: usize) -> Region {
        Region { row_start: start, row_end: end, ..self }
    }

    /// The region with the same rows and with the columns `start..end` of the matrix.
    #[inline(always)]
    pub(crate) fn with_cols(self, start: usize, end: usize) -> Region {
        Region { col_start: start, col_end: end, ..self }
    }

    /// Cuts the region above row `middle` of the matrix. Returns the upper part, which ends before that row, and the
    /// lower part, which begins with it.
    #[inline(always)]
    pub(crate) fn cut_rows(self, middle: usize) -> (Region, Region) {
        let upper = self.with_rows(self.row_start, middle);
        (upper, self.with_rows(middle, self.row_end))
    }

    /// Cuts the region to the left of column `middle` of the matrix. Returns the left part, which ends before that
    /// column, and the right part, which begins with it.
    #[inline(always)]
    pub(crate) fn cut_cols(self, middle: usize) -> (Region, Region) {
        let left = self.with_cols(self.col_start, middle);
        (left, self.with_cols(middle, self.col_end))
    }

    /// Returns the same region. If the caller passes constants, the compiler then knows how many rows and columns the
    /// region has.
    #[inline(always)]
    pub(crate) fn with_known_sides(self, rows: usize, cols: usize) -> Region {
        Region {
            row_start: self.row_start,
            row_end: self.row_start + rows,
            col_start: self.col_start,
            col_end: self.col_start + cols,
        }
    }
}

/// Writes the transpose of `region` to `out`, with one write for each item.
///
/// The region is a part of `input`, a matrix of `height` rows of `width` items. For each row y and column x of the
/// region, the item at `y * width + x` of `input` is written to cell `x * height + y`. All other cells keep their
/// items. Both lengths must be `width * height`, which [`fits_matrix`](crate::kernels::transpose::fits_matrix) checks. The
/// region must lie in the matrix, which [`Region::fits`] checks.
pub fn transpose_region_on<C: Cells>(
    input: &[C::Item],
    out: &mut Writes<C>,
    region: Region,
    width: usize,
    height: usize,
) {
    let source = SliceSource::new(input);
    put_region(Matrix::new(source, width, height), out, region, Tiles::Direct);
}

/// Puts a region: its whole tiles, and then the right edge, the bottom edge and the corner.
pub(crate) fn put_region<R, C>(matrix: Matrix<R>, out: &mut Writes<C>, region: Region, kind: Tiles)
where
    C: Cells,
    R: Source<Item = C::Item> + Copy,
{
    // A region without rows or columns has no items, but may have very many of the other.
    if region.row_start == region.row_end || region.col_start == region.col_end {
        return;
    }
    let row = region.row_start + region.rows() / TILE_SIDE * TILE_SIDE;
    let col = region.col_start + region.cols() / TILE_SIDE * TILE_SIDE;
    let (top, bottom) = region.cut_rows(row);
    let (tiles, right) = top.cut_cols(col);
    let (below, corner) = bottom.cut_cols(col);
    put_tiles(matrix, out, tiles, kind);
    put_plain(matrix, out, right);
    put_plain(matrix, out, below);
    put_plain(matrix, out, corner);
}

/// Puts a region of whole tiles, one row of tiles after another.
fn put_tiles<R, C>(matrix: Matrix<R>, out: &mut Writes<C>, tiles: Region, kind: Tiles)
where
    C: Cells,
    R: Source<Item = C::Item> + Copy,
{
    for k in 0..tiles.rows() / TILE_SIDE {
        let start = tiles.row_start + TILE_SIDE * k;
        let row = tiles.with_rows(start, start + TILE_SIDE);
        put_row_of_tiles(matrix, out, row, kind);
    }
}

/// Puts whole tiles that lie side by side, from left to right.
fn put_row_of_tiles<R, C>(matrix: Matrix<R>, out: &mut Writes<C>, tiles: Region, kind: Tiles)
where
    C: Cells,
    R: Source<Item = C::Item> + Copy,
{
    for k in 0..tiles.cols() / TILE_SIDE {
        let start = tiles.col_start + TILE_SIDE * k;
        let tile = tiles.with_cols(start, start + TILE_SIDE);
        put_tile(matrix, out, tile, kind);
    }
}

/// Copies a region plainly: column after column, with one put for each item.
pub(crate) fn put_plain<R, C>(matrix: Matrix<R>, out: &mut Writes<C>, region: Region)
where
    C: Cells,
    R: Source<Item = C::Item> + Copy,
{
    // A region without rows has no items, however many columns it has.
    if region.row_start < region.row_end {
        put_columns(matrix, out, region);
    }
}

/// Puts the columns of a region from left to right.
fn put_columns<R, C>(matrix: Matrix<R>, out: &mut Writes<C>, region: Region)
where
    C: Cells,
    R: Source<Item = C::Item> + Copy,
{
    for x in region.col_start..region.col_end {
        put_column(matrix, out, region.with_cols(x, x + 1));
    }
}

/// Puts a region of one column, from top to bottom.
fn put_column<R, C>(matrix: Matrix<R>, out: &mut Writes<C>, column: Region)
where
    C: Cells,
    R: Source<Item = C::Item> + Copy,
{
    for y in column.row_start..column.row_end {
        put_item(matrix, out, column.col_start, y);
    }
}

/// Puts the item in column `x` and row `y`.
fn put_item<R, C>(matrix: Matrix<R>, out: &mut Writes<C>, x: usize, y: usize)
where
    C: Cells,
    R: Source<Item = C::Item> + Copy,
{
    let from = place_in(matrix.source.len(), y, x, matrix.width);
    let to = place_in(out.len(), x, y, matrix.height);
    out.put(to, matrix.source.at(from));
}
