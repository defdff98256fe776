// rust/erase writes this file from crates/p3_util_dispatch/src/calls.rt. Make changes there.
//! What a call on slices does, once its precondition was tested. Whatever a holder says of itself, and whatever
//! [`choice`](crate::kernels::choice) chooses, each function here does what its name says: its contract is that of the kernel.

use crate::kernels::bulk::{Ahead, Blocked};
use crate::kernels::choice::{
    EIGHT_ROWS, LONG_BYTES, Limits, SEVERAL_COLUMNS, SHORT_COLUMN, few_items_of, has_eight_rows, has_lines, side_of,
    strips_of,
};
use crate::kernels::lines::Lines;
use crate::kernels::places::{Cells, Source};
use crate::kernels::strips::UNIT;
use crate::kernels::transpose::{Matrix, Region};
use crate::kernels::ways::{
    Blocks, Columns, InCols, InRows, Outlined, PutColumn, PutRegion, ShortColumns, put_as_block,
};
#[cfg(target_pointer_width = "32")]
use crate::width::Index as usize;

/// The bytes of a cache line.
pub(crate) const LINE: usize = 64;

/// The cells of a call, and what the choice of a way depends on: first what a build has, and then what follows from it. Only the
/// time depends on these constants.
pub(crate) trait Output: Blocked {
    /// The bytes of an item.
    const SIZE: usize;

    /// Whether a matrix of few items is put by code that is inlined.
    const IS_INLINED: bool;

    /// Whether the holder tests each index. Then blocks of several rows take less time than columns.
    const TESTS_INDICES: bool = true;

    /// Whether the holder transposes items in registers.
    const HAS_REGISTERS: bool = false;

    /// Whether the processor is an x86-64.
    const IS_X86_64: bool = false;

    /// Whether an item is so long that it is put by a function of its own.
    const IS_LONG: bool = LONG_BYTES <= Self::SIZE;

    /// The side of the squares of items that the holder transposes in registers, or 1.
    const SIDE: usize = side_of(Self::SIZE, Self::HAS_REGISTERS);

    /// Whether the holder can store items past the caches.
    const HAS_LINES: bool = has_lines(Self::SIZE, Self::HAS_REGISTERS, Self::IS_X86_64);

    /// From how many bytes on items are put past the caches.
    fn limits() -> Limits {
        Limits::of_users()
    }

    /// The address of the first cell, or 0 if no choice depends on it.
    fn address(&self) -> usize {
        0
    }

    /// Puts all items of a list of the same length, in the same order.
    fn copy<R: Ahead<Item = Self::Item> + Copy>(self, source: R) -> Self
    where
        Self: Sized;

    /// Puts a region by these lines. The holder may store them past the caches until it returns.
    fn put_past_caches<R: Ahead<Item = Self::Item> + Copy>(
        self,
        lines: Lines,
        matrix: Matrix<R>,
        region: Region,
    ) -> Self
    where
        Self: Sized,
    {
        lines.put(self, matrix, region)
    }
}

/// Transposes a matrix. This is inlined in a user's crate, and without debug assertions puts columns itself, since a call would
/// take as long. The calls have single arguments and no matrix, so that all are in registers and need no room on the stack.
#[inline(always)]
pub(crate) fn transpose_whole<M: Output, R: Ahead<Item = M::Item> + Copy>(
    cells: M,
    source: R,
    width: usize,
    height: usize,
) -> M {
    let items = source.len();
    if width <= 1 {
        return cells.copy(source);
    }
    // Here, and not above, the compiler makes fewer tests for the other choices.
    match M::SIDE {
        4 if width == 4 && height == 4 => return transpose_block::<4, _, _>(cells, source),
        8 if width == 8 && height == 8 => return transpose_block::<8, _, _>(cells, source),
        _ => {}
    }
    if height <= 1 {
        return cells.copy(source);
    }
    if !M::IS_LONG && items < few_items_of(M::SIDE) {
        if M::IS_INLINED {
            return transpose_tiny(cells, source, width, height);
        }
        return transpose_tiny_apart(cells, source, width, height);
    }
    transpose_apart(cells, source, width, height)
}

/// Transposes a matrix of few items.
#[inline(always)]
fn transpose_tiny<M: Output, R: Ahead<Item = M::Item> + Copy>(cells: M, source: R, width: usize, height: usize) -> M {
    let matrix = Matrix::new(source, width, height);
    let whole = matrix.whole();
    if M::TESTS_INDICES {
        let blocks = Blocks::<4, _>(Blocks::<2, _>(Blocks::<1, _>(Columns)));
        blocks.put(cells, matrix, whole)
    } else if height <= SHORT_COLUMN {
        ShortColumns.put(cells, matrix, whole)
    } else {
        Columns.put(cells, matrix, whole)
    }
}

/// Does the same as [`transpose_tiny`]. With debug assertions, a user's crate is often not optimized, and the package may be.
#[inline(never)]
fn transpose_tiny_apart<M: Output, R: Ahead<Item = M::Item> + Copy>(
    cells: M,
    source: R,
    width: usize,
    height: usize,
) -> M {
    transpose_tiny(cells, source, width, height)
}

/// Transposes a matrix of one block, in the holder's own way. The side is a constant, and with it the distance of its rows.
#[inline(never)]
fn transpose_block<const SIDE: usize, M: Output, R: Ahead<Item = M::Item> + Copy>(cells: M, source: R) -> M {
    let matrix = Matrix::new(source, SIDE, SIDE);
    let whole = matrix.whole();
    put_as_block(cells, matrix, whole)
}

/// Transposes a matrix that is neither copied nor one block, and has many items or long ones.
#[inline(never)]
fn transpose_apart<M: Output, R: Ahead<Item = M::Item> + Copy>(cells: M, source: R, width: usize, height: usize) -> M {
    let matrix = Matrix::new(source, width, height);
    let whole = matrix.whole();
    put_region(cells, matrix, whole)
}

/// Puts a region of a matrix: by lines, by blocks of several rows, or in strips.
#[inline(always)]
fn put_region<M: Output, R: Ahead<Item = M::Item> + Copy>(cells: M, matrix: Matrix<R>, region: Region) -> M {
    let (size, width, height) = (M::SIZE, matrix.width, matrix.height);
    if M::HAS_LINES && M::limits().fit(size, matrix, region, cells.address()) {
        return put_streamed(cells, matrix, region);
    }
    if M::IS_LONG {
        let columns = InRows::<UNIT, _, _>(LongColumns, LongColumns);
        return columns.put(cells, matrix, region);
    }
    if M::TESTS_INDICES {
        let blocks = Blocks::<EIGHT_ROWS, _>(Blocks::<4, _>(Blocks::<2, _>(Blocks::<1, _>(Columns))));
        if has_eight_rows(size, M::SIDE, width, height) {
            // Inlined too, this would enlarge the frame of a debug build.
            return Outlined(columns_at_a_time(blocks)).put(cells, matrix, region);
        }
        return columns_at_a_time(Blocks::<16, _>(blocks)).put(cells, matrix, region);
    }
    if has_eight_rows(size, M::SIDE, width, height) {
        let strips = InRows::<EIGHT_ROWS, _, _>(Columns, Columns);
        return columns_at_a_time(strips).put(cells, matrix, region);
    }
    // The side is a constant, so that an instance has no code for other squares.
    match M::SIDE {
        4 => columns_at_a_time(strips_of::<4>(width)).put(cells, matrix, region),
        8 => columns_at_a_time(strips_of::<8>(width)).put(cells, matrix, region),
        _ => columns_at_a_time(strips_of::<1>(width)).put(cells, matrix, region),
    }
}

/// Puts [`SEVERAL_COLUMNS`] at a time in this way.
#[inline(always)]
fn columns_at_a_time<S: PutRegion>(way: S) -> InCols<SEVERAL_COLUMNS, S, S> {
    InCols(way, way)
}

/// Puts a region by cache lines of the output, past the caches.
#[inline(never)]
fn put_streamed<M: Output, R: Ahead<Item = M::Item> + Copy>(cells: M, matrix: Matrix<R>, region: Region) -> M {
    let size = M::SIZE.clamp(1, LINE);
    let lines = Lines::new(LINE / size, cells.address() % LINE / size);
    cells.put_past_caches(lines, matrix, region)
}

/// Puts a column of long items. A build without optimization has copies of an item on the stack in each function that the item
/// goes through. So it goes through [`put_item`] alone.
#[derive(Clone, Copy)]
struct LongColumns;

impl PutColumn for LongColumns {
    fn put_column<M: Blocked, R: Ahead<Item = M::Item> + Copy>(
        self,
        out: M,
        matrix: Matrix<R>,
        from: usize,
        to: usize,
        rows: usize,
    ) -> M {
        let mut out = out;
        let mut t = 0;
        while t < rows {
            put_item(&mut out, matrix.source, from + t * matrix.width, to + t);
            t += 1;
        }
        out
    }
}

/// Puts the item at index `from` of a source into cell `to`.
#[inline(never)]
fn put_item<M: Cells, R: Source<Item = M::Item> + Copy>(out: &mut M, source: R, from: usize, to: usize) {
    out.put(to, source.at(from));
}

/// Puts a region of a matrix. One that is the whole matrix is put as a whole call.
#[inline(always)]
pub(crate) fn transpose_region<M: Output, R: Ahead<Item = M::Item> + Copy>(
    cells: M,
    matrix: Matrix<R>,
    region: Region,
) -> M {
    if region.rows() == matrix.height && region.cols() == matrix.width {
        transpose_whole(cells, matrix.source, matrix.width, matrix.height)
    } else {
        put_region(cells, matrix, region)
    }
}
