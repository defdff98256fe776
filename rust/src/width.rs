//! The type in which kernels count.

#[cfg(target_pointer_width = "64")]
pub(crate) type Index = usize;
#[cfg(target_pointer_width = "32")]
pub(crate) type Index = u64;
