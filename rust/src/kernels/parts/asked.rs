// rust/erase writes this file from crates/p3_util_dispatch/src/parts/asked.rt. Make changes there.
//! How finely a reversal is cut if a caller asks for some number of parts.

/// A list of more items is cut, whatever the size of its items.
const ONE_PART_ITEMS: usize = 1 << 16;

/// A list of more bytes is cut, however few items it has.
const ONE_PART_BYTES: usize = 1 << 21;

/// Fewer than `ONE_PART_ITEMS` items fit in `ONE_PART_BYTES` if each has more bytes than this.
const SHORT_ITEM: usize = 32;

/// The greatest number of items of `size` bytes that are left as one part.
pub(crate) const fn one_part_items(size: usize) -> usize {
    if size <= SHORT_ITEM { ONE_PART_ITEMS } else { ONE_PART_BYTES / size }
}

/// Into how many ranges a side of a grid is cut at most for this number of `parts`, 0 for 1. A grid that is cut into P ranges has
/// P(P + 1) / 2 patches, which are about two for each of `parts`. So the package passes half of the parts that a user asks for.
/// More patches would be smaller, and make less use of the caches.
const fn ranges_of_side(parts: usize) -> usize {
    1 + parts.saturating_sub(1).saturating_mul(4).isqrt()
}

/// Into how many ranges each side of a grid is cut at most, for a list of `len` items. Up to `one_part` items are one part.
pub(crate) const fn ranges_if_cut(len: usize, one_part: usize, parts: usize) -> Option<usize> {
    if len <= one_part { None } else { Some(ranges_of_side(parts)) }
}
