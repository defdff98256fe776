//! Everything of `p3-util` 0.8.0. On systems of 64 and 32 bits the proved calls replace its own, for every type of items that
//! they accept. `linear_map` stays the original's, since the proved map needs `K: Eq` on its type. So do `branch_hint`,
//! which makes the compiler keep a branch, and everything that the proved package does not have. On other systems
//! everything is the original's.
#![no_std]

pub use original::*;
#[cfg(any(target_pointer_width = "64", target_pointer_width = "32"))]
pub use p3_util_proved::{
    apply_to_chunks, assert_clone, assert_send, assert_sync, checked_log_size_sum, checked_pow2, indices_arr,
    iter_array_chunks_padded, log2_ceil_u64, log2_ceil_usize, log2_floor_usize, log2_strict_usize, log3_strict_usize,
    pretty_name, reverse_bits, reverse_bits_len, reverse_slice_index_bits, transpose, zip_eq,
};

/// What the proved package has in addition to the original's names: calls in parts, your own holders (values that give
/// access to a list only by index) with exact numbers of steps, and the reversal of rows. On systems of 32 bits
/// there are no calls in parts, and other systems do not have this module.
#[cfg(any(target_pointer_width = "64", target_pointer_width = "32"))]
pub mod proved {
    #[cfg(target_pointer_width = "64")]
    pub use p3_util_proved::parts;
    pub use p3_util_proved::{kernels, reverse_slice_row_index_bits};
}

/// The name of the release whose calls are in use. In a checkout of the repository it says that this is no release. On
/// other systems, where everything is the original's, it is `None`.
pub const PROVED_BUILD: Option<&str> = if cfg!(any(target_pointer_width = "64", target_pointer_width = "32")) {
    Some("no release: a checkout of p3-util-proved")
} else {
    None
};
