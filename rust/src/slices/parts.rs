//! Transposes and reversals in parts, for threads of your own. With the feature `parallel` the calls themselves run long lists
//! in parts on rayon's threads.
//!
//! The parts of a call may run in any order, at the same time, each on any thread. All parts together have the same
//! effect as the call. Nothing is allocated.
//!
//! ```
//! let mut list: Vec<u32> = (0..1 << 20).collect();
//! std::thread::scope(|threads| {
//!     for part in p3_util_proved::parts::reversal(&mut list, 16) {
//!         threads.spawn(|| part.run());
//!     }
//! });
//! assert_eq!(list[..3], [0, 1 << 19, 1 << 18]);
//! ```
//!
//! Parts differ in size, so ask for four parts of a transpose and eight of a reversal for each thread, as `parallel` does.
//! Threads that already wait for work make a reversal faster from about 2^17 items of 4 bytes on, and threads started for the
//! call from 2 to 4 MiB on.
//!
//! A part that is dropped without being run leaves its cells, or its pairs of items, as they are. The compiler does not
//! warn about `for _part in parts {}`, which drops all of them. Whatever you drop, forget or run in another order, and
//! wherever a panic comes from, memory is safe, and a reversal leaves each item once. README says under "Threads" what is
//! proved and what is reviewed, and `crates/p3_util_dispatch` of the repository has the contracts.
use core::fmt;

use super::{SliceItems, SliceSource, instances, refuse_rows};
use crate::kernels::parts::{PartToRun, PartsToRun, Plan, ReversalPlan, TransposePlan, one_part_items, ranges_if_cut};
use crate::kernels::reverse::fits_rows;
use crate::kernels::transpose::fits_matrix;

/// The greatest number of items of this type that [`reversal`] and [`row_reversal`] leave as one part.
///
/// It is 2^16, or the number of items that 2^21 bytes hold if that is less. Up to about that number, the call takes
/// less time than its parts on the threads of a pool. With the feature `checked` each reversal is one part.
///
/// ```
/// use p3_util_proved::parts::one_part_reversal;
///
/// # if cfg!(not(feature = "checked")) {
/// assert_eq!(one_part_reversal::<u32>(), 1 << 16);
/// assert_eq!(one_part_reversal::<[u64; 8]>(), 1 << 15);
/// # }
/// ```
#[must_use]
pub const fn one_part_reversal<F>() -> usize {
    if cfg!(feature = "checked") { usize::MAX } else { one_part_items(size_of::<F>()) }
}

/// The remaining parts of a transpose, as an iterator of known length.
#[must_use = "a part that is not run leaves its cells as they are"]
pub struct TransposeParts<'a, T>(PartsToRun<SliceItems<'a, T>, TransposePlan, &'a [T]>);

/// A part of a transpose. It is `Send` if its items are `Send` and `Sync`, and it is `Sync` if they are.
#[must_use = "a part that is not run leaves its cells as they are"]
pub struct TransposePart<'a, T>(PartToRun<SliceItems<'a, T>, TransposePlan, &'a [T]>);

/// The remaining parts of a reversal, as an iterator of known length.
#[must_use = "a part that is not run leaves the list neither as it was nor reversed"]
pub struct ReversalParts<'a, F>(PartsToRun<SliceItems<'a, F>, ReversalPlan, usize>);

/// A part of a reversal. It is `Send` if its items are, and `Sync` if they are.
#[must_use = "a part that is not run leaves the list neither as it was nor reversed"]
pub struct ReversalPart<'a, F>(PartToRun<SliceItems<'a, F>, ReversalPlan, usize>);

/// The plan for a list of `len` items of `size` bytes, and how many bytes a place has. A user's crate has no code of it,
/// since it is not generic.
fn plan_of(len: usize, size: usize, row_width: usize, ranges: Option<usize>) -> (usize, ReversalPlan) {
    let place = instances::bytes_of_place(size, row_width.wrapping_mul(size));
    ReversalPlan::in_places(len, size, row_width, place, ranges)
}

/// Cuts [`transpose::transpose`](crate::transpose::transpose) into at most `parts` parts, 0 for 1.
///
/// The longer side is cut, at multiples of 16 rows or columns. With the feature `checked` the columns are cut. A list that
/// is empty, or whose items have no bytes, has no parts.
///
/// ```
/// let matrix: Vec<u32> = (0..6000).collect();
/// let mut columns = vec![0; 6000];
/// p3_util_proved::parts::transpose(&matrix, &mut columns, 60, 100, 4).for_each(|part| part.run());
/// assert_eq!(columns[..3], [0, 60, 120]);
/// ```
///
/// # Panics
///
/// In the same cases as the call itself, before any part is returned.
#[track_caller]
#[must_use = "the transpose is put by its parts, and none has run yet"]
pub fn transpose<'a, T: Copy + Send + Sync>(
    input: &'a [T],
    output: &'a mut [T],
    width: usize,
    height: usize,
    parts: usize,
) -> TransposeParts<'a, T> {
    if !fits_matrix(input.len(), output.len(), width, height) {
        crate::transpose::refuse(input.len(), output.len(), width, height);
    }
    let height = if size_of::<T>() == 0 { 0 } else { height };
    let plan = TransposePlan::new(width, height, parts, cfg!(not(feature = "checked")));
    // With the feature `checked`, a share is the columns of a part, and those of the last part may be fewer.
    let share = if cfg!(feature = "checked") && plan.count() > 0 { plan.region(0).cols() * height } else { 0 };
    TransposeParts(PartsToRun::of(SliceItems::in_shares(output, share), plan, input))
}

/// Cuts [`reverse_slice_index_bits`](crate::reverse_slice_index_bits) into about `parts` parts, with the feature `checked` into
/// one.
///
/// A list of up to [`one_part_reversal`] items is one part, and one that is empty, or whose items have no bytes, has none.
/// A longer one, of 2^k items, is cut like a square of 2^(k / 2) rows and columns, or like two squares if k is odd. Each side
/// is cut into at most P ranges, and each patch of a square on or above its diagonal is a part. P ranges make P(P + 1) / 2
/// parts for each square. There may be fewer ranges, since all but the last have one length, a multiple of 8 items. P is 1 +
/// ⌊2√(N − 1)⌋, where N is half the parts that you ask for, divided among the squares, rounded down, and at least 1:
///
/// ```
/// # if cfg!(not(feature = "checked")) {
/// use p3_util_proved::parts::reversal;
///
/// let mut list = vec![0u8; 1 << 21];
/// assert_eq!([16, 64].map(|parts| reversal(&mut list, parts).len()), [20, 72]);
/// let square = &mut list[..1 << 20];
/// assert_eq!([16, 64].map(|parts| reversal(square, parts).len()), [21, 78]);
/// # }
/// ```
///
/// # Panics
///
/// In the same cases as the call itself, before any part is returned.
#[track_caller]
#[must_use = "the list is reversed by the parts, and none has run yet"]
pub fn reversal<F: Send>(vals: &mut [F], parts: usize) -> ReversalParts<'_, F> {
    row_reversal(vals, 1, parts)
}

/// Cuts [`reverse_slice_row_index_bits`](crate::reverse_slice_row_index_bits) into parts, as [`reversal`] does, with 2^k rows
/// for items. Only where a row is moved as one item are ranges multiples of 8. [`one_part_reversal`] counts items.
///
/// # Panics
///
/// In the same cases as the call itself, before any part is returned.
#[track_caller]
#[must_use = "the list is reversed by the parts, and none has run yet"]
pub fn row_reversal<F: Send>(vals: &mut [F], row_width: usize, parts: usize) -> ReversalParts<'_, F> {
    // A square is asked for half as many parts as it shall have, and an odd power of two is two squares.
    let asked = parts >> (1 + (vals.len() / row_width.max(1)).trailing_zeros() % 2);
    let ranges = ranges_if_cut(vals.len(), one_part_reversal::<F>(), asked);
    cut(vals, row_width, ranges)
}

/// The parts of a reversal. Each side of a square is cut into at most so many `ranges`. With `None` the list is one part.
#[track_caller]
pub(super) fn cut<F>(vals: &mut [F], row_width: usize, ranges: Option<usize>) -> ReversalParts<'_, F> {
    let len = vals.len();
    if !fits_rows(len, row_width) {
        refuse_rows(len, row_width);
    }
    let (bytes, plan) = plan_of(len, size_of::<F>(), row_width, ranges);
    ReversalParts(PartsToRun::of(SliceItems::in_shares(vals, len), plan, bytes))
}

impl<T: Copy> TransposePart<'_, T> {
    /// Writes the items of this part to the output.
    #[inline]
    pub fn run(self) {
        let (cells, input, part) = self.0.taken();
        instances::transpose_part(cells, SliceSource::new(input), part);
    }
}

impl<F> ReversalPart<'_, F> {
    /// Exchanges the items of this part.
    #[inline]
    pub fn run(self) {
        let (items, bytes, part) = self.0.taken();
        instances::reverse_part(items, bytes, part);
    }
}

macro_rules! iterators {
    ($($parts:ident $part:ident)*) => {$(
        impl<'a, T> Iterator for $parts<'a, T> {
            type Item = $part<'a, T>;

            fn next(&mut self) -> Option<$part<'a, T>> {
                self.0.hand_out().map($part)
            }

            fn size_hint(&self) -> (usize, Option<usize>) {
                (self.0.count(), Some(self.0.count()))
            }
        }

        impl<T> ExactSizeIterator for $parts<'_, T> {}

        impl<T> core::iter::FusedIterator for $parts<'_, T> {}

        impl<T> fmt::Debug for $parts<'_, T> {
            fn fmt(&self, f: &mut fmt::Formatter<'_>) -> fmt::Result {
                f.debug_struct(stringify!($parts)).field("left", &self.len()).finish()
            }
        }

        impl<T> fmt::Debug for $part<'_, T> {
            fn fmt(&self, f: &mut fmt::Formatter<'_>) -> fmt::Result {
                f.debug_struct(stringify!($part)).field("number", &self.0.number()).finish()
            }
        }
    )*};
}

iterators! { TransposeParts TransposePart ReversalParts ReversalPart }

#[cfg(test)]
mod tests;
