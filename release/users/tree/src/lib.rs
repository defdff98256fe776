//! A crate of a registry that depends on p3-util 0.8.

pub const LOG_ROWS: usize = p3_util::log2_strict_usize(1 << 5);

pub fn reversed<T: Send + Sync>(mut list: Vec<T>) -> Vec<T> {
    p3_util::reverse_slice_index_bits(&mut list);
    list
}

pub fn transposed<T: Copy + Send + Sync>(matrix: &[T], width: usize) -> Vec<T> {
    let mut output = matrix.to_vec();
    p3_util::transpose::transpose(matrix, &mut output, width, matrix.len() / width);
    output
}
