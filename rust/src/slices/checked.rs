//! The holders of slices with the feature `checked`. They check each index. Here the parts of a call do not share the
//! list: each part has a range of it for itself.

use core::mem::take;

use crate::kernels::bulk::{Ahead, Block, Blocked, Tiled};
use crate::kernels::calls::Output;
use crate::kernels::parts::Shared;
use crate::kernels::places::{Cells, Places, SliceCells, SlicePlaces};
// A whole list is no range of another one, so no index has to be moved.
pub(super) use crate::kernels::places::{SlicePlaces as WholeList, SliceSource};

/// A range of a list. The range begins at place `before` of the list, and its places have the same indices as in the list.
pub(super) struct SliceItems<'a, T> {
    items: &'a mut [T],
    before: usize,
    len: usize,
    share: usize,
}

impl<'a, T> SliceItems<'a, T> {
    pub(super) fn new(items: &'a mut [T]) -> Self {
        SliceItems::in_shares(items, 0)
    }

    /// The whole list. [`SliceItems::share`] cuts it into shares of `share` places each. The last share may have fewer.
    pub(super) fn in_shares(items: &'a mut [T], share: usize) -> Self {
        SliceItems { before: 0, len: items.len(), items, share }
    }
}

impl<T> Shared for SliceItems<'_, T> {
    /// Removes the next share and returns it.
    fn share(&mut self) -> Self {
        let middle = self.share.min(self.items.len());
        let (items, rest) = take(&mut self.items).split_at_mut(middle);
        self.items = rest;
        let before = self.before;
        self.before += middle;
        SliceItems { items, before, ..*self }
    }
}

impl<T: Copy> Output for SliceItems<'_, T> {
    const SIZE: usize = size_of::<T>();
    const IS_INLINED: bool = cfg!(not(debug_assertions));

    fn copy<R: Ahead<Item = T> + Copy>(self, source: R) -> Self {
        self.items.copy_from_slice(source.as_slice().expect("a whole slice"));
        self
    }
}

impl<F> Places for SliceItems<'_, F> {
    type Item = F;

    fn len(&self) -> usize {
        self.len
    }

    #[inline(always)]
    fn exchange(&mut self, i: usize, j: usize) {
        self.items.swap(i - self.before, j - self.before);
    }
}

impl<F> Tiled for SliceItems<'_, F> {
    fn exchange_runs(&mut self, i: usize, j: usize, len: usize) {
        SlicePlaces::new(self.items).exchange_runs(i - self.before, j - self.before, len);
    }
}

impl<T: Copy> Cells for SliceItems<'_, T> {
    type Item = T;

    fn len(&self) -> usize {
        self.len
    }

    #[inline(always)]
    fn put(&mut self, i: usize, v: T) {
        self.items[i - self.before] = v;
    }
}

impl<T: Copy> Blocked for SliceItems<'_, T> {
    #[inline(always)]
    fn put_block<R: Ahead<Item = T>>(&mut self, source: &R, block: Block) {
        let to = block.to - self.before;
        SliceCells::new(self.items).put_block(source, Block { to, ..block });
    }
}
