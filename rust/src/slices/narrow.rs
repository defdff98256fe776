//! The holders of slices on a system of 32 bits: those of the kernels, which check each index. The feature `checked` changes
//! nothing there.

use crate::kernels::bulk::Ahead;
use crate::kernels::calls::Output;
pub(super) use crate::kernels::places::{SliceCells as SliceItems, SlicePlaces as WholeList, SliceSource};
use crate::width::Index;

impl<T: Copy> Output for SliceItems<'_, T> {
    const SIZE: Index = size_of::<T>() as Index;
    const IS_INLINED: bool = cfg!(not(debug_assertions));

    fn copy<R: Ahead<Item = T> + Copy>(self, source: R) -> Self {
        self.values.copy_from_slice(source.as_slice().unwrap_or_default());
        self
    }
}
