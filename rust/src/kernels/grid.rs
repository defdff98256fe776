// rust/erase writes this file from crates/p3_util_fast/src/grid.rt. Make changes there.
//! Squares of a list, and the exchange of their items across the diagonal.
//!
//! A *grid* is a square with 2^k rows and columns. Its row `x` begins at a place of the list, and the row's other
//! places follow this one. The rows lie in the list at equal distances, in bit-reversed order. So the place of row `x`
//! and column `y` is `base + rev(x) * stride + y`, where `rev(x)` is `x` with its k binary digits in reversed order.
//!
//! The place of row `x` and column `y` is exchanged with the place of row `y` and column `x`, for all `x < y`. This
//! reverses the list by index bits, as the module [`rows`](crate::kernels::rows) explains. If the list consists of runs of
//! `width` items, such as rows, a place of the grid is the index of a run.
//!
//! The exchanges are made in the order of nested squares, down to *tiles* of 8 rows and columns. So the items of a
//! tile, which lie in a few cache lines, are exchanged together.

use crate::kernels::bits::{pow2, reverse_bits_len};
use crate::kernels::bulk::Tiled;
use crate::kernels::reverse::REVERSED_SIX;
use crate::kernels::transpose::Region;
#[cfg(target_pointer_width = "32")]
use crate::width::Index as usize;

/// The number of rows and of columns of a tile.
pub(crate) const TILE: usize = 8;

/// The greatest number of rows and of columns of a region that is not cut further.
const LEAF: usize = 64;

/// A square of `2^digits` rows and columns in a list of runs of `width` items.
#[derive(Clone, Copy)]
pub(crate) struct Grid {
    pub width: usize,
    /// The first place.
    pub base: usize,
    /// How far apart neighbouring rows of the list begin.
    pub stride: usize,
    pub digits: usize,
}

impl Grid {
    /// The place at which row `x` begins.
    #[inline(always)]
    fn start(self, x: usize) -> usize {
        self.base + reverse_digits(x, self.digits) * self.stride
    }

    /// How far from row `x` row `x + 4` begins, if 8 divides `x`. `_first` is a place of row `x`.
    #[inline(always)]
    fn row_distance(self, _first: usize) -> usize {
        self.stride * pow2(self.digits - 3)
    }

    /// The places of one column in the 8 rows of a tile. `first` is the place in the first of these rows.
    #[inline(always)]
    fn tile_rows(self, first: usize) -> [usize; 8] {
        // If 8 divides `x`, row `x + t` begins as far from row `x` as these distances say, one for each binary digit of
        // `t` that is set.
        let four = self.row_distance(first);
        let (one, two) = (4 * four, 2 * four);
        let middle = first + four;
        [first, first + one, first + two, first + one + two, middle, middle + one, middle + two, middle + one + two]
    }

    /// The rows of the tile at row `x` and column `y`, and those of its mirror image. Row `x` begins at place `first`,
    /// and row `y` at place `start`.
    #[inline(always)]
    fn tile_pair(self, x: usize, y: usize, first: usize, start: usize) -> ([usize; 8], [usize; 8]) {
        (self.tile_rows(first + y), self.tile_rows(start + x))
    }
}

/// Exchanges the runs of `width` items with the indices `i` and `j`.
#[inline(always)]
fn exchange_places<M: Tiled>(m: M, width: usize, i: usize, j: usize) -> M {
    let mut m = m;
    if width == 1 {
        m.exchange(i, j);
    } else {
        m.exchange_runs(i * width, j * width, width);
    }
    m
}

/// Exchanges places of row `row` with their mirror images. These are the places in the columns of `region`, which are
/// to the right of the diagonal.
#[inline(always)]
fn exchange_row<M: Tiled>(m: M, grid: Grid, row: usize, region: Region) -> M {
    let first = grid.start(row);
    let mut m = m;
    for col in region.col_start..region.col_end {
        m = exchange_places(m, grid.width, first + col, grid.start(col) + row);
    }
    m
}

/// Exchanges the tiles of a region that lie in the 8 columns from `col` on with their mirror images.
#[inline(always)]
fn exchange_tile_column<M: Tiled>(m: M, grid: Grid, col: usize, region: Region) -> M {
    let start = grid.start(col);
    let mut first = grid.start(region.row_start);
    let mut m = m;
    for tile in region.row_start / TILE..region.row_end / TILE {
        let next = tile * TILE + TILE;
        // After the last tile the next one is below the region, and within the grid too.
        let below = grid.start(next);
        let (next_rows, next_cols) = grid.tile_pair(next, col, below, start);
        m.expect_tiles(next_rows, next_cols);
        let (rows, cols) = grid.tile_pair(tile * TILE, col, first, start);
        m.exchange_tiles(rows, cols);
        first = below;
    }
    m
}

/// Exchanges a region above the diagonal with its mirror image, tile by tile.
#[inline(always)]
fn exchange_leaf_tiles<M: Tiled>(m: M, grid: Grid, region: Region) -> M {
    let mut m = m;
    for tile in region.col_start / TILE..region.col_end / TILE {
        m = exchange_tile_column(m, grid, tile * TILE, region);
    }
    m
}

/// Exchanges a region above the diagonal with its mirror image, without cutting the region: tile by tile if the region
/// consists of tiles, and otherwise row after row.
#[inline(always)]
fn exchange_leaf<M: Tiled>(m: M, grid: Grid, region: Region) -> M {
    let whole_rows = region.row_start % TILE == 0 && region.row_end % TILE == 0;
    let whole_cols = region.col_start % TILE == 0 && region.col_end % TILE == 0;
    if grid.width == 1 && whole_rows && whole_cols {
        return exchange_leaf_tiles(m, grid, region);
    }
    let mut m = m;
    for row in region.row_start..region.row_end {
        m = exchange_row(m, grid, row, region);
    }
    m
}

/// Exchanges a region above the diagonal with its mirror image. A region that is not a leaf is cut in half at its
/// longer side. The calls nest at most as deep as the sides can be halved until neither is longer than `LEAF`. The
/// proof that the calls end counts these levels.
pub(crate) fn exchange_region<M: Tiled>(m: M, grid: Grid, region: Region) -> M {
    let (rows, cols) = (region.rows(), region.cols());
    if rows <= LEAF && cols <= LEAF {
        exchange_leaf(m, grid, region)
    } else if rows > cols {
        let (upper, lower) = region.cut_rows(region.row_start + upper_half(rows));
        let m = exchange_region(m, grid, upper);
        exchange_region(m, grid, lower)
    } else {
        let (left, right) = region.cut_cols(region.col_start + upper_half(cols));
        let m = exchange_region(m, grid, left);
        exchange_region(m, grid, right)
    }
}

/// Half of `size`, rounded up to whole tiles. The rest is not greater. So a side of at most `8 * 2^d` is cut into two
/// sides of at most `8 * 2^(d - 1)`.
#[inline(always)]
fn upper_half(size: usize) -> usize {
    (size - 1) / (2 * TILE) * TILE + TILE
}

/// Exchanges the items above the diagonal with their mirror images in a smaller square inside `grid`: the one with the
/// `size` rows and the `size` columns from `start` on. This is done row after row.
#[inline(always)]
fn exchange_on_diagonal<M: Tiled>(m: M, grid: Grid, start: usize, size: usize) -> M {
    let end = start + size;
    let mut m = m;
    for row in start..end {
        let right = Region { row_start: row, row_end: row + 1, col_start: row + 1, col_end: end };
        m = exchange_row(m, grid, row, right);
    }
    m
}

/// Does the same as [`exchange_on_diagonal`], for a tile.
#[inline(always)]
fn exchange_diagonal_tile<M: Tiled>(m: M, grid: Grid, start: usize) -> M {
    let places = grid.tile_rows(grid.start(start) + start);
    let mut m = m;
    if grid.width == 1 {
        m.turn_tile(places);
        return m;
    }
    for row in 0..TILE {
        for col in row + 1..TILE {
            m = exchange_places(
                m,
                grid.width,
                places[row as core::primitive::usize] + col,
                places[col as core::primitive::usize] + row,
            );
        }
    }
    m
}

/// Does the same as [`exchange_on_diagonal`], by quadrants. The calls nest at most as deep as `size` can be halved
/// until it is at most 8. The proof that the calls end counts these levels.
pub(crate) fn exchange_quadrants<M: Tiled>(m: M, grid: Grid, start: usize, size: usize) -> M {
    if size == TILE && start % TILE == 0 {
        return exchange_diagonal_tile(m, grid, start);
    }
    if size <= TILE {
        return exchange_on_diagonal(m, grid, start, size);
    }
    let half = upper_half(size);
    let upper_right =
        Region { row_start: start, row_end: start + half, col_start: start + half, col_end: start + size };
    let m = exchange_quadrants(m, grid, start, half);
    let m = exchange_region(m, grid, upper_right);
    exchange_quadrants(m, grid, start + half, size - half)
}

/// Exchanges all items of a grid that are above the diagonal with their mirror images, by quadrants or row by row. Row
/// by row, the compiler unrolls the exchanges if it knows that the grid has two or four rows.
#[inline(always)]
pub(crate) fn exchange_square<M: Tiled>(m: M, grid: Grid, row_by_row: bool) -> M {
    let size = pow2(grid.digits);
    if row_by_row { exchange_on_diagonal(m, grid, 0, size) } else { exchange_quadrants(m, grid, 0, size) }
}

/// Reverses `x`, which has at most `digits` binary digits. Up to six digits are looked up in the table, and more are
/// reversed by halves.
#[inline(always)]
pub(crate) fn reverse_digits(x: usize, digits: usize) -> usize {
    if digits <= 6 {
        usize::from(REVERSED_SIX[(x * (64 >> digits) % 64) as core::primitive::usize])
    } else {
        reverse_bits_len(x, digits)
    }
}
