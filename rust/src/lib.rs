//! Bit reversal, transposes and the other small functions of `p3-util` 0.8.0, under its names, built on proved sources.
//!
//! ```
//! use p3_util_proved::{reverse_slice_index_bits, transpose::transpose};
//! // The package's own name. Your Cargo.toml may name it p3_util, as README shows, so that code for the original compiles.
//!
//! let mut list = [0, 1, 2, 3, 4, 5, 6, 7];
//! reverse_slice_index_bits(&mut list);
//! assert_eq!(list, [0, 4, 2, 6, 1, 5, 3, 7]);
//!
//! let mut columns = [0; 8];
//! transpose(&list, &mut columns, 4, 2);
//! assert_eq!(columns, [0, 1, 4, 5, 2, 3, 6, 7]);
//! ```
//!
//! [`reverse_slice_index_bits`], [`reverse_slice_row_index_bits`] and [`transpose::transpose`] reorder slices. With the feature
//! `parallel`, they run long lists on rayon's threads, on systems of 64 bits. [`parts`] cuts these calls into parts for threads
//! of your own. [`linear_map`] has a map for few keys.
//!
//! If a function needs a condition, such as a length that is a power of two, it checks that condition and panics if it
//! does not hold. [`reverse_bits`] and [`reverse_bits_len`] check theirs only with debug assertions. Then proved code
//! does the work: [`kernels`] has it, and also takes lists of your own.
//!
//! The crate is `no_std` with `alloc`. Without the feature `parallel` it starts no thread. With the feature `checked`, the kernels
//! check each index of a slice, and the crate has no unsafe code. Results are the same. Both features are off by default. If one
//! crate of a program enables a feature, cargo enables it for all. With `parallel`, [`reverse_slice_row_index_bits`] needs items
//! that are `Send`.
#![no_std]
#![cfg_attr(feature = "checked", forbid(unsafe_code))]
#![cfg_attr(not(feature = "checked"), deny(unsafe_code))]

extern crate alloc;
#[cfg(test)]
extern crate std;

#[cfg(not(any(target_pointer_width = "64", target_pointer_width = "32")))]
compile_error!("p3-util-proved needs a usize of 64 or 32 bits");

mod bits;
/// The proved code. The contracts are in docs/contracts.txt of a release, and in the repository beside the functions.
///
/// Here a reversal or a transpose also takes a list of your own, by a *holder*: a value that gives access to a list by
/// index. Calls that count tell you how many swaps or writes they make, and their contracts give the exact number.
///
/// No function here checks its precondition. If the precondition does not hold, a call may leave the list in another
/// order, panic or never end, but it never touches memory outside the lists. Check the precondition before you call. In
/// these tests, `len` is the length of the holder:
///
/// | Call of [`reverse`](kernels::reverse) or [`transpose`](kernels::transpose) | Test |
/// |---|---|
/// | `reverse_index_bits_on`, `reverse_index_bits_short` | `fits_rows(len, 1)` |
/// | `reverse_index_bits_long` | `len.is_power_of_two() && len >= 4` |
/// | `reverse_row_index_bits_on` | `fits_rows(len, row_width)` |
/// | `reverse_chunks_on` | `checked_log_size_sum(lb_num_chunks, lb_chunk_size)` is `Some((_, items))` where `items` is `len` |
/// | `transpose_on`, `transpose_source_on` | `fits_matrix(input_len, len, width, height)` |
/// | `transpose_region_on` | the same, and `region.fits(width, height)` |
/// | `transpose_split_on`, `transpose_source_split_on` | the same as for a region; 64 `levels` are always enough |
/// | `transpose_square_on` | `fits_square(len, base, log_stride, log_size)` |
///
/// A reversal needs [`Places`](kernels::places::Places). A transpose reads from a [`Source`](kernels::places::Source) and
/// writes to [`Cells`](kernels::places::Cells). This example is for systems of 64 bits. On others, each `usize` of a trait is
/// an [`Index`](kernels::Index):
///
/// ```
/// use p3_util_proved::kernels::places::{Cells, Places, Source, Swaps, Writes};
/// use p3_util_proved::kernels::{reverse::reverse_index_bits_on, transpose::transpose_source_on};
///
/// /// Every second item of a slice.
/// struct Even<'a>(&'a mut [usize]);
///
/// impl Places for Even<'_> {
///     type Item = usize;
///     fn len(&self) -> usize { self.0.len() / 2 }
///     fn exchange(&mut self, i: usize, j: usize) { self.0.swap(2 * i, 2 * j) }
/// }
///
/// impl Cells for Even<'_> {
///     type Item = usize;
///     fn len(&self) -> usize { self.0.len() / 2 }
///     fn put(&mut self, i: usize, v: usize) { self.0[2 * i] = v }
/// }
///
/// /// The squares of the numbers below a bound.
/// struct Squares(usize);
///
/// impl Source for Squares {
///     type Item = usize;
///     fn len(&self) -> usize { self.0 }
///     fn at(&self, i: usize) -> usize { i * i }
/// }
///
/// let mut list: Vec<usize> = (0..16).collect();
/// let mut swaps = Swaps::new(Even(&mut list));
/// reverse_index_bits_on(&mut swaps);
/// assert_eq!(swaps.swaps(), 2);
/// assert_eq!(list[..8], [0, 1, 8, 3, 4, 5, 12, 7]);
///
/// // The input has two rows of three items, which are computed when they are read.
/// let mut writes = Writes::new(Even(&mut list[..12]));
/// transpose_source_on(&Squares(6), &mut writes, 3, 2);
/// assert_eq!(writes.writes(), 6);
/// assert_eq!(list[..12], [0, 1, 9, 3, 1, 5, 16, 7, 4, 9, 25, 11]);
/// ```
#[allow(clippy::len_without_is_empty, reason = "a kernel asks a holder for its length alone")]
#[allow(clippy::only_used_in_recursion, reason = "by the bound, a recursion ends")]
#[cfg_attr(any(feature = "checked", target_pointer_width = "32"), allow(dead_code, reason = "no registers"))]
#[allow(clippy::unnecessary_cast, reason = "on a system of 32 bits, an index is a `u64`")]
#[allow(rustdoc::private_intra_doc_links, reason = "seven functions are private here")]
pub mod kernels;
pub mod linear_map;
mod memory;
#[cfg(doctest)]
mod refused;
mod slices;
pub mod transpose;
mod width;
pub mod zip_eq;

#[doc(inline)]
pub use bits::proved::{
    assert_clone, branch_hint, checked_log_size_sum, checked_pow2, indices_arr, log2_ceil_u64, log2_ceil_usize,
    log2_floor_usize,
};
pub use bits::{log2_strict_usize, log3_strict_usize, reverse_bits, reverse_bits_len};
#[doc(inline)]
pub use kernels::chunks::apply_to_chunks;
#[cfg(target_pointer_width = "64")]
#[doc(alias("parallel", "rayon", "threads"))]
pub use slices::parts;
#[doc(alias("bit reversal", "bit_reversal", "bit_reverse_permutation", "fft", "matrix", "ntt", "reverse"))]
pub use slices::{reverse_slice_index_bits, reverse_slice_row_index_bits};

/// Does nothing, but a call compiles only if `T` is `Send`.
///
/// ```compile_fail,E0277
/// p3_util_proved::assert_send::<std::rc::Rc<u8>>();
/// ```
#[inline]
pub const fn assert_send<T: Send>() {}

/// Does nothing, but a call compiles only if `T` is `Sync`.
///
/// ```compile_fail,E0277
/// p3_util_proved::assert_sync::<std::cell::Cell<u8>>();
/// ```
#[inline]
pub const fn assert_sync<T: Sync>() {}

/// Cuts the items of `iter` up to its first `None` into arrays of `N` items. If `N` is 0, there is no array.
///
/// If `N` does not divide their number, the last array is filled with `default`. In [`apply_to_chunks`] the last chunk is
/// shorter instead. This is the proved [`kernels::chunks::iter_array_chunks_padded`].
///
/// ```
/// use p3_util_proved::{apply_to_chunks, iter_array_chunks_padded};
///
/// assert!(iter_array_chunks_padded([1, 2, 3], 0).eq([[1, 2], [3, 0]]));
///
/// let mut sums = vec![];
/// apply_to_chunks::<2, _, _>([1, 2, 3, 4, 5], |chunk| sums.push(chunk.iter().sum::<u8>()));
/// assert_eq!(sums, [3, 7, 5]);
/// ```
#[inline]
pub fn iter_array_chunks_padded<T: Copy, const N: usize>(
    iter: impl IntoIterator<Item = T>,
    default: T,
) -> impl Iterator<Item = [T; N]> {
    kernels::chunks::iter_array_chunks_padded(iter, default)
}

/// The short name of `T`: `alloc::vec::Vec<core::option::Option<u32>>` becomes `Vec<Option<u32>>`.
///
/// ```
/// assert_eq!(p3_util_proved::pretty_name::<Option<Vec<u8>>>(), "Option<Vec<u8>>");
/// ```
///
/// # Panics
///
/// If memory runs out. The proved [`kernels::bits::pretty_name`] returns an error then.
#[track_caller]
pub fn pretty_name<T>() -> alloc::string::String {
    memory::granted(kernels::bits::pretty_name(memory::Global, core::any::type_name::<T>())).into()
}
