// rust/erase writes this file from crates/p3_util_fast/src/registers/blocks.rt. Make changes there.
//! How a holder puts a block: by whole cache lines, by squares, or item by item.

use crate::kernels::bulk::{Ahead, Block, Blocked};
use crate::kernels::places::Cells;
use crate::kernels::registers::line_blocks::put_by_lines;
use crate::kernels::registers::{Loads, Register, Runs, in_columns, in_rows, load_columns, store};

/// Cells into which runs are put, too.
pub(crate) trait RunsOfCells<T: Copy, D: Register<T>>: Runs<T, D> + Cells<Item = T> {}

/// Cells into which some blocks are put by squares that are transposed in registers.
pub(crate) trait SquaresOfCells<T: Copy, D: Register<T>>: RunsOfCells<T, D> {
    /// The side of the blocks that the holder transposes in registers, or 1.
    const SQUARE: usize;

    /// Only for speed: a hint that a square is put, and that the next cells of its columns may be put soon.
    fn expect_columns(&self, square: Block);
}

/// Cells into which some blocks are put by whole lines, past the caches.
pub(crate) trait LinesOfCells<T: Copy, D: Register<T>>: RunsOfCells<T, D> {
    /// Whether each column of a block of this many rows is a line that may be streamed.
    fn may_stream_lines(&self, block: Block) -> bool;
}

/// Does what `Blocked::put_block` does: by squares if the block is one that the holder transposes in registers, and
/// otherwise item by item. Registers are read from `runs`, which has the items of the source. A holder may read each
/// run of these, and put each run that is within a column of the block.
#[inline(always)]
pub(crate) fn put_block_in_squares<
    T: Copy,
    D: Register<T>,
    S: Loads<T, D>,
    R: Ahead<Item = T>,
    M: SquaresOfCells<T, D> + Blocked,
>(
    cells: &mut M,
    runs: &S,
    source: &R,
    block: Block,
) {
    let side = D::SIDE;
    match M::SQUARE {
        0 | 1 => {}
        square => {
            if is_square(side, square, block) {
                cells.expect_columns(block);
                put_by_squares(cells, runs, block);
                return;
            }
        }
    }
    cells.put_block_singly(source, block);
}

/// Does what `Blocked::put_block` does: by whole lines if the holder may stream the lines of the block, and otherwise
/// item by item. Registers are read from `runs`, which has the items of the source. A holder may read each run of
/// these.
#[inline(always)]
pub(crate) fn put_block_in_lines<
    T: Copy,
    D: Register<T>,
    S: Loads<T, D>,
    R: Ahead<Item = T>,
    M: LinesOfCells<T, D> + Blocked,
>(
    cells: &mut M,
    runs: &S,
    source: &R,
    block: Block,
) {
    let (side, len) = (D::SIDE, source.len());
    if is_of_lines(side, block, len) && cells.may_stream_lines(block) {
        put_by_lines(cells, runs, block);
        return;
    }
    cells.put_block_singly(source, block);
}

/// Whether a block has the rows and columns of whole lines, and a source of `len` items has `side` items of each row,
/// from the block's first column on.
#[inline(always)]
fn is_of_lines(side: usize, block: Block, len: usize) -> bool {
    if side != 1 && side != 2 && side != 4 || block.rows != 4 * side {
        return false;
    }
    block.cols == block.rows || block.cols == 1 && block.from + (block.rows - 1) * block.width + side <= len
}

/// Whether a block has `square` rows and columns, and registers whose halves have `side` items transpose it.
#[inline(always)]
fn is_square(side: usize, square: usize, block: Block) -> bool {
    block.cols == block.rows
        && block.rows == square
        && (square == 4 || square == 8)
        && (side == square || side == square / 2)
}

/// Where row `c` of `count` rows begins. After the last row come the same rows again.
#[inline(always)]
fn start(first: usize, stride: usize, count: usize, c: usize) -> usize {
    first + c % count * stride
}

/// Where the rows of a block begin, or those of its transpose.
#[inline(always)]
pub(super) fn starts(first: usize, stride: usize, count: usize) -> [usize; 8] {
    eight!(start(first, stride, count))
}

/// Puts `D::SIDE` columns of a block, from column `col` on, which are squares one above another. If the block has 4
/// rows, the registers have each of its squares twice, and one of both is put.
#[inline(always)]
fn put_squares<T, D: Register<T>, S: Loads<T, D>, M: Runs<T, D>>(cells: &mut M, source: &S, block: Block, col: usize) {
    let from = in_columns(starts(block.from, block.width, block.rows), [col; 8]);
    let to = in_rows(starts(block.to, block.height, block.rows), D::SIDE, [col; 8]);
    store(cells, block.rows, to, load_columns(source, from));
}

/// Does what `Blocked::put_block` does, by squares of `D::SIDE` rows.
#[inline(always)]
fn put_by_squares<T, D: Register<T>, S: Loads<T, D>, M: Runs<T, D>>(cells: &mut M, source: &S, block: Block) {
    put_squares(cells, source, block, 0);
    if D::SIDE < block.rows {
        put_squares(cells, source, block, D::SIDE);
    }
}
