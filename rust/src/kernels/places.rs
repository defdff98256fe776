// rust/erase writes this file from crates/p3_util_kernels/src/places.rt. Make changes there.
//! Lists that are reached by index alone, and counters that count the changes to such lists.
//!
//! These terms are used throughout the crate:
//!
//! - A *holder* gives access to a list by index. [`SlicePlaces`] and [`SliceCells`] are holders for
//!   slices. A view that shows a list of rows as one list of items can be a holder too, and so can
//!   a type of your own. A slice itself is not a holder.
//! - A *place* is an index of a list whose items can be exchanged ([`Places`]). A *cell* is an
//!   index of a list into which items can be put ([`Cells`]). A *source* is a holder of a list that
//!   can only be read ([`Source`]).
//! - A *step* is one exchange or one put: the holder *exchanges* the items at two places, or it
//!   *puts* one item into a cell. It counts as a step even if the list stays as it is.
//! - A *counter* is a holder around another holder, and counts the steps of the holder inside.
//!   [`Swaps`] counts exchanges, and an exchange that it counts is called a *swap*. [`Writes`]
//!   counts puts, and a put that it counts is called a *write*.
//! - A *kernel* is a private generic function that does the work of a call. It is given a counter
//!   and makes single swaps or writes.
//!
//! The traits of holders have only a length and one step, or one read. A kernel is generic over its holder, so it
//! changes the list by steps alone, and its contract gives the exact number of steps that the holder makes. The kernel
//! can neither leave out a step nor make an extra one.
//!
//! A reference to a holder is a holder too. A call whose name ends in `_on`, `_short` or `_long` is given a counter and
//! adds to its count. A call on a slice is the `_on` call over a counter that starts at 0, around a holder of that
//! slice.

#[cfg(target_pointer_width = "32")]
use crate::width::Index as usize;

mod counters;
mod references;
mod slices;

pub use counters::{Swaps, Writes};
pub use slices::{SliceCells, SlicePlaces, SliceSource};

/// A list whose items can only be exchanged: they can neither be read nor be moved in any other way.
///
/// In a contract, `items` is the list of the holder's items. `same_holder n a b` says that b is the holder a after n
/// exchanges. What that means depends on the holder. If the holder counts, the count of b is n more than the count of
/// a. If it does not count, it ignores n. If it borrows its items, b borrows the same slice as a, so a change to the
/// holder is a change to that slice.
///
/// A holder of your own defines `len` and `exchange`.
pub trait Places {
    /// The type of the items.
    type Item;

    /// The number of places.
    fn len(&self) -> usize;

    /// Exchanges the items at places `i` and `j`. If `i` equals `j`, nothing changes.
    fn exchange(&mut self, i: usize, j: usize);
}

/// A list into which items can be put, and from which none can be read.
///
/// In a contract, `items` is the list of the holder's items. `same_holder n a b` says that b is the holder a after n
/// puts. The rest is the same as for [`Places`]. A holder of your own defines `len` and `put`.
pub trait Cells {
    /// The type of the items.
    type Item: Copy;

    /// The number of cells.
    fn len(&self) -> usize;

    /// Puts `v` into cell `i`. All other cells keep their items.
    fn put(&mut self, i: usize, v: Self::Item);
}

/// A list whose items can be read but not changed.
///
/// In a contract, `items` is the list of the source's items. A source of your own defines `len` and `at`.
pub trait Source {
    /// The type of the items.
    type Item: Copy;

    /// The number of items.
    fn len(&self) -> usize;

    /// The item at index `i`.
    fn at(&self, i: usize) -> Self::Item;
}

/// Does nothing at run time. A function calls it with the length of a list, so that its proof knows that this length
/// fits in a `usize`.
#[inline(always)]
pub(crate) fn len_fits(_len: usize) {}
