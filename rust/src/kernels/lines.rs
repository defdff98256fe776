// rust/erase writes this file from crates/p3_util_dispatch/src/lines.rt. Make changes there.
//! Puts a region by *lines*: by the cache lines of the output, from the first cell of a line to its last.
//!
//! The region is put panel after panel. A *panel* has 1024 columns, and is put by rows of lines, from top to bottom. A *row of
//! lines* has one line of each of these columns. If the height of the matrix is no multiple of a line, the columns of a row
//! of lines begin in different rows of the matrix. The first and the last row of lines have the parts of lines at the ends of
//! the columns.

use crate::kernels::bulk::{Ahead, Blocked};
use crate::kernels::transpose::{Matrix, Region};
use crate::kernels::ways::{Columns, InCols, Outlined, PutRegion, put_as_block};
#[cfg(target_pointer_width = "32")]
use crate::width::Index as usize;

/// Lines are put in so many columns at a time. The memory pages that these columns are on are few
/// enough for the processor to keep all of their addresses.
const LINE_COLUMNS: usize = 1024;

/// A row of the matrix that is as long as this many lines is long.
const LONG_ROW: usize = 32;

/// A region with more rows is not put by lines.
const MOST_ROWS: usize = 1 << 62;

/// The cache lines of an output.
#[derive(Clone, Copy)]
pub(crate) struct Lines {
    /// The number of cells of a line, a power of two.
    cells: usize,
    /// The first cell of the output is the one after so many others of its line.
    before: usize,
}

impl Lines {
    /// Lines of `cells` cells. The first cell of the output is the one after `before` others of its
    /// line.
    #[inline(always)]
    pub(crate) fn new(cells: usize, before: usize) -> Lines {
        Lines { cells, before }
    }

    /// The row to which column `col` of `region` is put, if each column is put as far as `rows` rows after the line of its
    /// first cell begins. The next column begins `step` cells later in its line.
    #[inline(always)]
    fn limit(self, region: Region, step: usize, rows: usize, col: usize) -> usize {
        let first = self.before.wrapping_add(region.row_start);
        let before = first.wrapping_add(col.wrapping_mul(step)) & (self.cells - 1);
        region.row_start + region.rows().min(rows.saturating_sub(before))
    }

    /// As many cells, or fewer, come before the first cell of a column of `region` in the line of that cell.
    #[inline(always)]
    fn most_before(self, region: Region, step: usize) -> usize {
        if step == 0 {
            // All columns begin at the same cell of a line.
            return self.before.wrapping_add(region.row_start) & (self.cells - 1);
        }
        self.cells
    }

    /// Tells the source that rows from `row` on, those of the next row of lines, may be read soon. Of as many neighbouring
    /// columns as a line has cells, each asks for an item of another row, to the right of these columns. Where long rows are
    /// read by blocks, the processor reads ahead by itself.
    ///
    /// A holder that puts one block cannot ask for these rows by itself: it does not see in which rows the lines of the
    /// neighbouring columns begin.
    #[inline(always)]
    fn expect_rows<R: Ahead + Copy>(self, matrix: Matrix<R>, region: Region, row: usize, col: usize, end: usize) {
        let is_long = col + 1 < end && LONG_ROW * self.cells <= region.cols();
        if region.row_end <= row || is_long {
            return;
        }
        for x in col..end {
            self.expect_row(matrix, region, row, x);
        }
    }

    /// Tells the source that one of the rows from `row` on may be read soon. Column `x` asks for its item of another row.
    #[inline(always)]
    fn expect_row<R: Ahead + Copy>(self, matrix: Matrix<R>, region: Region, row: usize, x: usize) {
        let below = x.wrapping_sub(region.col_start) & (self.cells - 1);
        let right = x.wrapping_sub(below).wrapping_add(self.cells);
        let down = row.wrapping_add(below).wrapping_mul(matrix.width);
        matrix.source.expect(down.wrapping_add(right));
    }
}

impl PutRegion for Lines {
    #[inline(always)]
    fn put<M: Blocked, R: Ahead<Item = M::Item> + Copy>(self, out: M, matrix: Matrix<R>, region: Region) -> M {
        let panel = Panel(self);
        InCols::<LINE_COLUMNS, _, _>(panel, panel).put(out, matrix, region)
    }
}

/// Puts a region by these lines in one panel: its rows of lines from top to bottom, each from left to right. In the rows of
/// lines at the top and at the bottom, a column may have a part of a line.
#[derive(Clone, Copy)]
struct Panel(Lines);

impl PutRegion for Panel {
    #[inline(never)]
    fn put<M: Blocked, R: Ahead<Item = M::Item> + Copy>(self, out: M, matrix: Matrix<R>, region: Region) -> M {
        let lines = self.0;
        if region.row_end > MOST_ROWS || region.col_start == region.col_end {
            return Outlined(Columns).put(out, matrix, region);
        }
        let step = matrix.height & (lines.cells - 1);
        let most = lines.most_before(region, step);
        let mut out = out;
        let mut rows_done = 0;
        while rows_done < region.rows() + most {
            let next = rows_done + lines.cells;
            if most <= rows_done && next <= region.rows() {
                out = put_row(out, matrix, region, lines, step, rows_done);
            } else {
                out = put_edge_row(out, matrix, region, lines, step, rows_done);
            }
            rows_done = next;
        }
        out
    }
}

/// Puts the first or the last row of lines, in which a column may have a part of a line or none. If all columns begin at the same
/// cell of a line, they are put column after column.
#[inline(always)]
fn put_edge_row<M: Blocked, R: Ahead<Item = M::Item> + Copy>(
    out: M,
    matrix: Matrix<R>,
    region: Region,
    lines: Lines,
    step: usize,
    rows_done: usize,
) -> M {
    let next = rows_done + lines.cells;
    if step == 0 {
        let from = lines.limit(region, step, rows_done, region.col_start);
        let to = lines.limit(region, step, next, region.col_start);
        return Outlined(Columns).put(out, matrix, region.with_rows(from, to));
    }
    let mut out = out;
    for col in region.col_start..region.col_end {
        let from = lines.limit(region, step, rows_done, col);
        let to = lines.limit(region, step, next, col);
        if from < to {
            let part = region.with_rows(from, to).with_cols(col, col + 1);
            out = put_as_block(out, matrix, part);
        }
    }
    out
}

/// Puts a row of lines that are whole in every column. Each column is put as far as `rows_done` rows after the line of its first
/// cell begins, and is put one line further.
#[inline(never)]
fn put_row<M: Blocked, R: Ahead<Item = M::Item> + Copy>(
    out: M,
    matrix: Matrix<R>,
    region: Region,
    lines: Lines,
    step: usize,
    rows_done: usize,
) -> M {
    let mut out = out;
    let next = region.row_start + rows_done + lines.cells;
    let mut col = region.col_start;
    if step == 0 {
        let from = lines.limit(region, step, rows_done, col);
        while lines.cells <= region.col_end - col {
            let end = col + lines.cells;
            lines.expect_rows(matrix, region, next, col, end);
            let line = region.with_rows(from, from + lines.cells).with_cols(col, end);
            out = put_as_block(out, matrix, line.with_known_sides(lines.cells, lines.cells));
            col = end;
        }
    }
    while col < region.col_end {
        lines.expect_row(matrix, region, next, col);
        let from = lines.limit(region, step, rows_done, col);
        let line = region.with_rows(from, from + lines.cells).with_cols(col, col + 1);
        out = put_as_block(out, matrix, line.with_known_sides(lines.cells, 1));
        col += 1;
    }
    out
}
