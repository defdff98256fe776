// rust/erase writes this file from crates/p3_util_kernels/src/places/references.rt. Make changes there.
//! References to holders. Such a reference is a holder too: each step and each read is made by the holder behind the
//! reference.

use crate::kernels::places::{Cells, Places, Source};
#[cfg(target_pointer_width = "32")]
use crate::width::Index as usize;

/// The holder behind the reference makes the exchanges.
impl<S: Places> Places for &mut S {
    type Item = S::Item;

    fn len(&self) -> usize {
        S::len(self)
    }

    #[inline(always)]
    fn exchange(&mut self, i: usize, j: usize) {
        S::exchange(self, i, j);
    }
}

/// The holder behind the reference makes the puts.
impl<C: Cells> Cells for &mut C {
    type Item = C::Item;

    fn len(&self) -> usize {
        C::len(self)
    }

    #[inline(always)]
    fn put(&mut self, i: usize, v: Self::Item) {
        C::put(self, i, v);
    }
}

/// The items are read from the source behind the reference.
impl<R: Source> Source for &R {
    type Item = R::Item;

    fn len(&self) -> usize {
        R::len(self)
    }

    #[inline(always)]
    fn at(&self, i: usize) -> Self::Item {
        R::at(self, i)
    }
}
