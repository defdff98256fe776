// rust/erase writes this file from crates/p3_util_kernels/src/places/counters.rt. Make changes there.
//! Counters: holders around another holder, which count its exchanges or its puts.
//!
//! A counter is itself a holder, as [`places`](crate::kernels::places) explains. The count rises by 1 with each step that the
//! holder inside makes. No other module can reach the fields of a counter. So whoever has one can change the list
//! inside only by steps that are counted.

use crate::kernels::places::{Cells, Places, len_fits};
#[cfg(target_pointer_width = "32")]
use crate::width::Index as usize;

/// A counter around a holder of places. It counts exchanges. The count stops at `u128::MAX`.
#[derive(Debug)]
pub struct Swaps<S> {
    holder: S,
    count: u128,
}

impl<S: Places> Swaps<S> {
    /// A counter around `holder` that starts at 0.
    pub fn new(holder: S) -> Self {
        len_fits(holder.len());
        Swaps { holder, count: 0 }
    }

    /// The number of places.
    pub fn len(&self) -> usize {
        self.holder.len()
    }

    /// Makes one swap: the holder inside exchanges the items at places `i` and `j`, and the counter counts this.
    #[inline(always)]
    pub fn swap(&mut self, i: usize, j: usize) {
        self.holder.exchange(i, j);
        self.count = self.count.saturating_add(1);
    }

    /// The number of swaps so far, at most `u128::MAX`.
    pub fn swaps(&self) -> u128 {
        self.count
    }

    /// Returns the holder inside, without the count.
    pub fn into_inner(self) -> S {
        let Swaps { holder, count: _ } = self;
        holder
    }
}

/// A counter around a holder of cells. It counts puts. The count stops at `u128::MAX`.
#[derive(Debug)]
pub struct Writes<C> {
    holder: C,
    count: u128,
}

impl<C: Cells> Writes<C> {
    /// A counter around `holder` that starts at 0.
    pub fn new(holder: C) -> Self {
        len_fits(holder.len());
        Writes { holder, count: 0 }
    }

    /// The number of cells.
    pub fn len(&self) -> usize {
        self.holder.len()
    }

    /// Makes one write: the holder inside puts `v` into cell `i`, and the counter counts this.
    #[inline(always)]
    pub fn put(&mut self, i: usize, v: C::Item) {
        self.holder.put(i, v);
        self.count = self.count.saturating_add(1);
    }

    /// The number of writes so far, at most `u128::MAX`.
    pub fn writes(&self) -> u128 {
        self.count
    }

    /// Returns the holder inside, without the count.
    pub fn into_inner(self) -> C {
        let Writes { holder, count: _ } = self;
        holder
    }
}

/// The holder inside makes each exchange, and the counter counts it.
impl<S: Places> Places for Swaps<S> {
    type Item = S::Item;

    fn len(&self) -> usize {
        Swaps::len(self)
    }

    #[inline(always)]
    fn exchange(&mut self, i: usize, j: usize) {
        Swaps::swap(self, i, j);
    }
}

/// The holder inside makes each put, and the counter counts it.
impl<C: Cells> Cells for Writes<C> {
    type Item = C::Item;

    fn len(&self) -> usize {
        Writes::len(self)
    }

    #[inline(always)]
    fn put(&mut self, i: usize, v: Self::Item) {
        Writes::put(self, i, v);
    }
}
