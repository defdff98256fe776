// rust/erase writes this file from crates/p3_util_dispatch/src/parts/transpose.rt. Make changes there.
//! The regions that the transpose of a matrix is cut into.

use crate::kernels::bulk::Ahead;
use crate::kernels::calls::{Output, transpose_region};
use crate::kernels::parts::Cut;
use crate::kernels::parts::lists::{Part, Plan};
use crate::kernels::strips::UNIT;
use crate::kernels::transpose::{Matrix, Region};

/// The transpose of a matrix of `height` rows of `width` items, cut into regions of neighbouring
/// rows or of neighbouring columns.
#[derive(Clone, Copy)]
pub(crate) struct TransposePlan {
    pub width: usize,
    pub height: usize,
    by_rows: bool,
    cut: Cut,
}

impl TransposePlan {
    /// Cuts the longer side into at most `parts` parts, at multiples of `UNIT`. If
    /// `may_cut_rows` is false, the columns are cut, whichever side is longer. A `parts` of 0
    /// counts as 1. A matrix without items has no region.
    pub(crate) fn new(width: usize, height: usize, parts: usize, may_cut_rows: bool) -> TransposePlan {
        let by_rows = may_cut_rows && height > width;
        let side = if width == 0 || height == 0 {
            0
        } else if by_rows {
            height
        } else {
            width
        };
        TransposePlan { width, height, by_rows, cut: Cut::new(side, parts, UNIT) }
    }

    /// Region `number`.
    pub(crate) fn region(self, number: usize) -> Region {
        let (from, to) = self.cut.part(number);
        if self.by_rows {
            Region { row_start: from, row_end: to, col_start: 0, col_end: self.width }
        } else {
            Region { row_start: 0, row_end: self.height, col_start: from, col_end: to }
        }
    }
}

impl Plan for TransposePlan {
    /// The number of regions.
    fn count(self) -> usize {
        self.cut.count()
    }
}

/// Puts the region of a part.
#[inline(never)]
pub(crate) fn transpose_part<M: Output, R: Ahead<Item = M::Item> + Copy>(
    cells: M,
    source: R,
    part: Part<TransposePlan>,
) -> M {
    let Part { plan, number } = part;
    let matrix = Matrix::new(source, plan.width, plan.height);
    let region = plan.region(number);
    transpose_region(cells, matrix, region)
}
