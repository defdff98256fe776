//! Kernels that are compiled for each size of item, and not for each type. Only `slices.rs` and `parts.rs` use this
//! file.
//!
//! A kernel never looks at an item, so an instance only has to know how many bytes an item has. Those for the sizes in the
//! table of `by_size!`, and for rows, are compiled in this package, because the functions of a `ByteList` are not generic and
//! name every size. From 1.85 on, rustc does not compile a generic function again in a crate that uses the package, if it is
//! not inlined and the package has it for the same types.
//!
//! If the processor does not move unaligned bytes as fast as aligned ones, each type has kernels of its own.

use super::holders::{Bytes, Items, MOVES_BYTES, SliceItems, SliceSource, USES_REGISTERS, Vector};
use super::{reverse_holder, reverse_rows_of_holder};
use crate::kernels::calls;
use crate::kernels::choice::LONG_BYTES;
use crate::kernels::parts::{self, Part, ReversalPlan, TransposePlan};
use crate::kernels::registers::{Pair, Two};

/// `by_size!(size)` is whether the size is in this table. `by_size!(size, holder = list => call, _ => other)` is `call` if
/// it is, and otherwise `other`. In `call`, `holder` is the holder of the list as items of this size.
macro_rules! by_size {
    ($size:expr $(, $($form:tt)*)?) => {
        by_size!(@ [1: Items<1>, 2: Pair<Items<2>>, 4: Pair<Items<4>>, 8: Pair<Items<8>>, 16: Two<Vector>]
            [1 2 4 8 12 16 20 32 64] $size $(, $($form)*)?)
    };
    (@ [$($short:literal: $rows:ty),*] [$($bytes:literal)*] $size:expr) => {
        MOVES_BYTES && matches!($size, $($bytes)|*)
    };
    (@ [$($short:literal: $rows:ty),*] [$($bytes:literal)*]
    $size:expr, $holder:ident = $list:expr => $call:expr, _ => $other:expr) => {
        match $size {
            $($short if USES_REGISTERS => {
                let $holder: SliceItems<Bytes<$short>, $rows> = $list.in_bytes();
                $call
            })*
            $($bytes if MOVES_BYTES => {
                let $holder: SliceItems<Bytes<$bytes>> = $list.in_bytes();
                $call
            })*
            _ => $other,
        }
    };
}

/// Whether an item of `size` bytes is exchanged as a run of bytes.
const fn is_run(size: usize) -> bool {
    MOVES_BYTES && LONG_BYTES <= size
}

#[inline(always)]
pub(super) fn reverse<F>(items: SliceItems<F>) {
    if const { is_run(size_of::<F>()) } {
        return reverse_rows(items, 1);
    }
    by_size!(
        const { size_of::<F>() },
        holder = items => reverse_holder(holder),
        _ => reverse_holder(items)
    );
}

#[inline(always)]
pub(super) fn reverse_rows<F>(items: SliceItems<F>, row_width: usize) {
    if MOVES_BYTES {
        reverse_bytes(items.in_bytes(), row_width * size_of::<F>());
    } else {
        reverse_rows_of_holder(items, row_width);
    }
}

/// A list of items or rows that are taken as bytes.
type ByteList<'a> = SliceItems<'a, Bytes<1>>;

/// Reverses the order of rows of `row` bytes each by index bits.
#[inline(never)]
fn reverse_bytes(list: ByteList, row: usize) {
    by_size!(
        row,
        holder = list => reverse_holder(holder),
        _ => reverse_rows_of_holder(list, row)
    );
}

#[inline(always)]
pub(super) fn transpose_whole<T: Copy>(cells: SliceItems<T>, source: SliceSource<T>, width: usize, height: usize) {
    by_size!(
        const { size_of::<T>() },
        holder = cells => _ = calls::transpose_whole(holder, source.in_bytes(), width, height),
        _ => _ = calls::transpose_whole(cells, source, width, height)
    );
}

#[inline(always)]
pub(super) fn transpose_part<T: Copy>(cells: SliceItems<T>, source: SliceSource<T>, part: Part<TransposePlan>) {
    if const { by_size!(size_of::<T>()) } {
        transpose_part_of_bytes(cells.in_bytes(), source.in_bytes(), part, size_of::<T>());
    } else {
        let _ = parts::transpose_part(cells, source, part);
    }
}

/// How many bytes a place has in a reversal of rows of `row` bytes each, of items of `size` bytes. If there is an instance for
/// `row` bytes, a row is a place. Otherwise an item is one if a row has only this item and the item is not long. All other rows are runs
/// of bytes. If items are not taken as bytes, each is a place.
pub(super) fn bytes_of_place(size: usize, row: usize) -> usize {
    if by_size!(row) {
        row
    } else if !MOVES_BYTES || row == size && !is_run(size) {
        size
    } else {
        1
    }
}

/// Makes the exchanges of a part, whose places have so many `bytes`.
#[inline(always)]
pub(super) fn reverse_part<F>(items: SliceItems<F>, bytes: usize, part: Part<ReversalPlan>) {
    if const { by_size!(size_of::<F>()) } || bytes != size_of::<F>() {
        reverse_part_of_bytes(items.in_bytes(), bytes, part);
    } else {
        let _ = parts::reverse_part(items, part);
    }
}

#[inline(never)]
fn reverse_part_of_bytes(list: ByteList, bytes: usize, part: Part<ReversalPlan>) {
    by_size!(
        bytes,
        holder = list => _ = parts::reverse_part(holder, part),
        _ => unreachable!("these items have kernels of their type")
    );
}

#[inline(never)]
fn transpose_part_of_bytes(cells: ByteList, source: SliceSource<Bytes<1>>, part: Part<TransposePlan>, size: usize) {
    by_size!(
        size,
        holder = cells => _ = parts::transpose_part(holder, source.in_bytes(), part),
        _ => unreachable!("this size has no kernels here")
    );
}
