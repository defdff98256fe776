//! Transposes of matrices that are stored as flat slices, row after row.

#[doc(alias = "matrix")]
pub use crate::slices::transpose;

/// Panics with the original's message about the first length that is not `width * height`.
#[cold]
#[inline(never)]
#[track_caller]
pub(crate) fn refuse(input: usize, output: usize, width: usize, height: usize) -> ! {
    let product = width as u128 * height as u128;
    for (list, len) in [("Input", input), ("Output", output)] {
        assert_eq!(len as u128, product, "{list} length {len} doesn't match width*height = {product}");
    }
    unreachable!("lengths that fit are not refused");
}
