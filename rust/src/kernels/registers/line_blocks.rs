// rust/erase writes this file from crates/p3_util_fast/src/registers/line_blocks.rt. Make changes there.
//! Blocks whose columns are whole cache lines: each column is stored from its first cell to its last, one right after
//! the other.

use crate::kernels::bulk::Block;
use crate::kernels::registers::blocks::starts;
use crate::kernels::registers::{Four, Loads, Register, Runs, load, load_two, next_stage};

/// Reads 8 rows, from place `from` on, and transposes them. The registers hold the columns, of 8 items each, one after
/// another.
#[inline(always)]
fn load_lines<T, D: Register<T>, S: Loads<T, D>>(list: &S, from: usize, width: usize) -> Four<D> {
    let one = load(list, starts(from, width, 8));
    let two = next_stage(one);
    next_stage(two)
}

/// Writes the first half of a register from place `first` on, and then the second half from place `second` on.
#[inline(always)]
fn stream_two<T, D: Register<T>, M: Runs<T, D>>(list: &mut M, first: usize, second: usize, rows: D) {
    let (a, b) = rows.halves();
    list.stream(first, a);
    list.stream(second, b);
}

/// Stores two registers, one after the other, where column `col` of a block is put.
#[inline(always)]
fn put_line<T, D: Register<T>, M: Runs<T, D>>(list: &mut M, block: Block, col: usize, a: D, b: D) {
    let side = D::SIDE;
    let to = block.to + col * block.height;
    stream_two(list, to, to + side, a);
    stream_two(list, to + 2 * side, to + 3 * side, b);
}

/// Puts `D::SIDE` columns of a block, from column `col` on. Each is stored from its first cell to its last.
#[inline(never)]
fn put_some_lines<T, D: Register<T>, S: Loads<T, D>, M: Runs<T, D>>(
    cells: &mut M,
    source: &S,
    block: Block,
    col: usize,
) {
    let side = D::SIDE;
    let from = block.from + col;
    let top = load_lines(source, from, block.width);
    if side == 2 {
        put_line(cells, block, col, top.a, top.b);
        put_line(cells, block, col + 1, top.c, top.d);
        return;
    }
    let bottom = load_lines(source, from + 8 * block.width, block.width);
    put_line(cells, block, col, top.a, bottom.a);
    put_line(cells, block, col + 1, top.b, bottom.b);
    put_line(cells, block, col + 2, top.c, bottom.c);
    put_line(cells, block, col + 3, top.d, bottom.d);
}

/// Puts a block of one column. Of each row, the registers have some items to the right of this column too.
#[inline(always)]
fn put_one_line<T, D: Register<T>, S: Loads<T, D>, M: Runs<T, D>>(cells: &mut M, source: &S, block: Block) {
    let side = D::SIDE;
    let top = load_lines(source, block.from, block.width);
    if side == 2 {
        put_line(cells, block, 0, top.a, top.b);
        return;
    }
    let bottom = load_lines(source, block.from + 8 * block.width, block.width);
    put_line(cells, block, 0, top.a, bottom.a);
}

/// Puts a column of a block of 4 rows.
#[inline(always)]
fn put_four<T, D: Register<T>, S: Loads<T, D>, M: Runs<T, D>>(cells: &mut M, source: &S, block: Block, col: usize) {
    let from = block.from + col;
    let a = load_two(source, from, from + block.width);
    let b = load_two(source, from + 2 * block.width, from + 3 * block.width);
    put_line(cells, block, col, a, b);
}

/// Does what `Blocked::put_block` does, for blocks of 4 * `D::SIDE` rows and as many columns, or of one column, column
/// after column.
#[inline(always)]
pub(crate) fn put_by_lines<T, D: Register<T>, S: Loads<T, D>, M: Runs<T, D>>(cells: &mut M, source: &S, block: Block) {
    let side = D::SIDE;
    if side > 1 && block.cols == 1 {
        put_one_line(cells, source, block);
        return;
    }
    for part in 0..block.cols / side {
        if side == 1 {
            put_four(cells, source, block, part);
        } else {
            put_some_lines(cells, source, block, part * side);
        }
    }
}
