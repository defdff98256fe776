// rust/erase writes this file from crates/p3_util_kernels/src/places/slices.rt. Make changes there.
//! The holders of slices. [`SlicePlaces`] exchanges items, [`SliceCells`] puts items into the slice, and
//! [`SliceSource`] reads items.

use crate::kernels::places::{Cells, Places, Source};
#[cfg(target_pointer_width = "32")]
use crate::width::Index as usize;

/// The places of a mutable slice. All changes are made in the slice itself.
#[derive(Debug)]
pub struct SlicePlaces<'a, F> {
    /// The slice whose items are exchanged.
    pub items: &'a mut [F],
}

impl<'a, F> SlicePlaces<'a, F> {
    /// A holder for the slice `items`. Place `i` is index `i` of the slice.
    pub fn new(items: &'a mut [F]) -> Self {
        SlicePlaces { items }
    }
}

impl<'a, F> Places for SlicePlaces<'a, F> {
    type Item = F;

    fn len(&self) -> usize {
        self.items.len() as usize
    }

    #[inline(always)]
    fn exchange(&mut self, i: usize, j: usize) {
        self.items.swap(i as core::primitive::usize, j as core::primitive::usize);
    }
}

/// The cells of a mutable slice. All items are put into the slice itself.
#[derive(Debug)]
pub struct SliceCells<'a, T> {
    /// The slice into which items are put.
    pub values: &'a mut [T],
}

impl<'a, T: Copy> SliceCells<'a, T> {
    /// A holder for the slice `values`. Cell `i` is index `i` of the slice.
    pub fn new(values: &'a mut [T]) -> Self {
        SliceCells { values }
    }
}

impl<'a, T: Copy> Cells for SliceCells<'a, T> {
    type Item = T;

    fn len(&self) -> usize {
        self.values.len() as usize
    }

    #[inline(always)]
    fn put(&mut self, i: usize, v: T) {
        self.values[i as core::primitive::usize] = v;
    }
}

/// A source that reads the items of a slice.
#[derive(Clone, Copy, Debug)]
pub struct SliceSource<'a, T> {
    /// The slice that is read.
    pub slice: &'a [T],
}

impl<'a, T: Copy> SliceSource<'a, T> {
    /// A source of the items of `slice`, in order.
    pub fn new(slice: &'a [T]) -> Self {
        SliceSource { slice }
    }
}

impl<'a, T: Copy> Source for SliceSource<'a, T> {
    type Item = T;

    fn len(&self) -> usize {
        self.slice.len() as usize
    }

    #[inline(always)]
    fn at(&self, i: usize) -> T {
        self.slice[i as core::primitive::usize]
    }
}
