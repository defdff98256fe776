// rust/erase writes this folder from the proved sources in crates/. Make changes there.
#![warn(clippy::default_numeric_fallback)]

pub mod bits;
pub mod places;
pub mod reverse;
pub mod transpose;

pub(crate) mod bulk;
pub(crate) mod grid;
#[cfg(target_pointer_width = "64")]
pub(crate) mod registers;
pub(crate) mod rows;
pub(crate) mod strips;
pub(crate) mod ways;

pub(crate) mod calls;
pub(crate) mod choice;
pub(crate) mod lines;
#[cfg(target_pointer_width = "64")]
pub(crate) mod parts;

pub mod chunks;
pub mod linear_map;
mod no_room;
pub mod zip_eq;
pub use no_room::NoRoom;

/// The type of a place, of a length and of a number of digits: `usize`, and `u64` on a system of 32 bits.
///
/// The proofs are about numbers of 64 bits, so kernels compute with them everywhere. Each place that a step names is below the
/// length of its list, so it keeps its value if a holder converts it to a `usize`.
pub type Index = crate::width::Index;

/// What the functions of [`kernels`](self) that may need memory take and return: [`Global`](memory::Global) stands for the
/// allocator, and [`AllocError`](memory::AllocError) says that there was no memory. The functions at the package's root need
/// neither.
pub mod memory {
    pub use crate::memory::{AllocError, Global, String};
}
