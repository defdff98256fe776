// rust/erase writes this file from crates/p3_util_dispatch/src/parts/reversal.rt. Make changes there.
//! The parts that a reversal is cut into, and what each of them does.

use crate::kernels::bits::pow2;
use crate::kernels::bulk::Tiled;
use crate::kernels::grid::{exchange_quadrants, exchange_region};
use crate::kernels::parts::RowPairs;
use crate::kernels::parts::lists::{Part, Plan};
use crate::kernels::rows::reverse_rows;

/// How the reversal of rows is cut.
#[derive(Clone, Copy)]
pub(crate) enum ReversalPlan {
    /// The number of items, and that of the items of each row. The call is the only part. If there
    /// are no items, there is no part.
    Whole(usize, usize),
    /// Each patch of these pairs is a part.
    Patches(RowPairs),
}

impl ReversalPlan {
    /// The plan for a list of `len` items, `row_width` in each row. With a number of parts, and if
    /// there are items, it has the patches of [`RowPairs::new`].
    pub(crate) fn new(len: usize, row_width: usize, parts: Option<usize>) -> ReversalPlan {
        match parts {
            Some(parts) if len > 0 => ReversalPlan::Patches(RowPairs::new(len, row_width, parts)),
            _ => ReversalPlan::Whole(len, row_width),
        }
    }

    /// The plan for a list of `len` items of `size` bytes, `row_width` in each row, which is taken as a list of places. Also
    /// returns how many bytes each place has: `place` if all rows have whole places of so many bytes, and otherwise 1.
    pub(crate) fn in_places(
        len: usize,
        size: usize,
        row_width: usize,
        place: usize,
        parts: Option<usize>,
    ) -> (usize, ReversalPlan) {
        let all = len * size;
        if all == 0 {
            return (1, ReversalPlan::new(0, 0, parts));
        }
        let row = row_width * size;
        let bytes = whole_places(row, place);
        (bytes, ReversalPlan::new(all / bytes, row / bytes, parts))
    }
}

/// How many bytes a place has: `place` if a row of `row` bytes has whole places of so many, and otherwise 1.
fn whole_places(row: usize, place: usize) -> usize {
    if place > 0 && row % place == 0 { place } else { 1 }
}

impl Plan for ReversalPlan {
    /// The number of parts.
    fn count(self) -> usize {
        match self {
            ReversalPlan::Whole(len, _) => len.min(1),
            ReversalPlan::Patches(pairs) => pairs.count(),
        }
    }
}

impl RowPairs {
    /// The number of patches that are on the diagonal of their grid or above it.
    fn count(self) -> usize {
        self.cut.pairs() * pow2(self.rows.digits % 2)
    }

    /// Exchanges the two rows of each pair in patch `number`.
    pub(crate) fn exchange<M: Tiled>(self, number: usize, m: M) -> M {
        let (middle, region) = self.patch(number);
        let grid = self.rows.grid(middle);
        if region.row_start == region.col_start {
            exchange_quadrants(m, grid, region.row_start, region.rows())
        } else {
            exchange_region(m, grid, region)
        }
    }
}

/// Makes the exchanges of a part.
pub(crate) fn reverse_part<M: Tiled>(items: M, part: Part<ReversalPlan>) -> M {
    match part.plan {
        ReversalPlan::Patches(pairs) => pairs.exchange(part.number, items),
        // In this arm, the compiler knows that a row is one item.
        ReversalPlan::Whole(_, 1) => reverse_rows(items, 1),
        ReversalPlan::Whole(_, row_width) => reverse_rows(items, row_width),
    }
}
