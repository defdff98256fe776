// rust/erase writes this file from crates/p3_util_kernels/src/transpose.rt. Make changes there.
//! Transposes of matrices that are stored as flat lists, row after row.
//!
//! A *region* is a rectangle in a matrix: the items that lie in some neighbouring rows and in some neighbouring
//! columns. To *put* a region is to put each of its items into the cell that it has in the transpose. A *tile* is a
//! region of 16 by 16 items.
//!
//! The transpose of a whole matrix takes one of three paths. A matrix of at most 255 items is copied plainly, column
//! after column. A matrix of at most 1,048,576 items is put as one region, tile after tile, and what lies beside its
//! tiles is copied plainly. A larger matrix is split into regions first. The calls whose names have `region` put a
//! region without a split, and those whose names have `split` split it first.
//!
//! It is proved that each call puts every item where it belongs (`IsTranspose`, `IsRegionTransposed`). For the calls
//! that count, it is also proved that each item takes exactly one write. The order of the writes is only tested, and so
//! is the path on which it depends.

#[cfg(target_pointer_width = "32")]
use crate::width::Index as usize;

// `region` defines matrices and regions, and puts one region. `tile` puts one tile, by the blocks of `butterfly`.
// `split` halves a region until its parts are small or narrow. `square` transposes a square in place, for the long path
// of a bit reversal.
mod butterfly;
mod region;
pub(crate) mod split;
mod square;
mod tile;

use crate::kernels::places::{Cells, SliceCells, SliceSource, Source, Writes};
pub use butterfly::{butterfly_4x4, butterfly_stage1, butterfly_stage2};
pub(crate) use region::Matrix;
pub use region::{Region, transpose_region_on};
use region::{put_plain, put_region};
pub use split::{transpose_source_split_on, transpose_split_on};
pub use square::{fits_square, transpose_square_on};
use tile::Tiles;

/// The greatest number of items of a matrix that is copied plainly.
const PLAIN_ITEMS: usize = 255;

/// The greatest number of items of a matrix that is put as one region.
const REGION_ITEMS: usize = 1_048_576;

/// How deep the splits of a larger matrix may nest. No matrix needs as many levels.
const ENOUGH_LEVELS: u32 = 64;

/// Whether an input and an output of these lengths both have `width * height` items.
///
/// If that product overflows, they do not. This tests the preconditions of [`transpose`] and [`transpose_on`].
#[inline]
#[must_use]
pub const fn fits_matrix(input_len: usize, output_len: usize, width: usize, height: usize) -> bool {
    match width.checked_mul(height) {
        Some(items) => input_len == items && output_len == items,
        None => false,
    }
}

/// Transposes `input`, a matrix of `height` rows of `width` items, into `output`, and does not check the lengths: both
/// must be `width * height`, which [`fits_matrix`] checks.
///
/// The item at `y * width + x` of `input` is put at `x * height + y` of `output`. If you transpose `output`, as a
/// matrix of `width` rows of `height` items, you get `input` again. [`transpose_on`] writes the items in the same
/// order.
#[allow(dead_code)]
pub(crate) fn transpose<T: Copy>(input: &[T], output: &mut [T], width: usize, height: usize) {
    transpose_cells(&SliceSource::new(input), &mut SliceCells::new(output), width, height);
}

/// Transposes a source into any cells. The caller makes the holder, so it knows what is in the slice afterwards.
fn transpose_cells<R, C>(input: &R, cells: &mut C, width: usize, height: usize)
where
    C: Cells,
    R: Source<Item = C::Item>,
{
    let mut out = Writes::new(cells);
    transpose_source_on(input, &mut out, width, height);
}

/// Writes the transpose of `input` to `out`, as [`transpose`] does, in exactly `width * height` writes.
///
/// Both lengths must be `width * height`, which [`fits_matrix`] checks.
///
/// A matrix of at most 255 items is written column after column. A matrix of 256 to 1,048,576 items is written as one
/// region: first its tiles of 16 by 16 items, each in 16 blocks of 4 by 4, and then the columns to the right of the
/// tiles, the rows below them and the corner. A larger matrix is split and written as [`transpose_split_on`] does it.
/// The contract does not promise this order, but it is tested.
pub fn transpose_on<C: Cells>(input: &[C::Item], out: &mut Writes<C>, width: usize, height: usize) {
    transpose_source_on(&SliceSource::new(input), out, width, height);
}

/// Writes the transpose of any source to `out`, as [`transpose_on`] does for a slice.
///
/// Both lengths must be `width * height`, which [`fits_matrix`] checks.
pub fn transpose_source_on<R, C>(input: &R, out: &mut Writes<C>, width: usize, height: usize)
where
    C: Cells,
    R: Source<Item = C::Item>,
{
    let matrix = Matrix::new(input, width, height);
    let whole = matrix.whole();
    let items = input.len();
    if items <= PLAIN_ITEMS {
        put_plain(matrix, out, whole);
    } else if items <= REGION_ITEMS {
        put_region(matrix, out, whole, Tiles::Direct);
    } else {
        let _ = transpose_source_split_on(input, out, whole, width, height, ENOUGH_LEVELS);
    }
}
