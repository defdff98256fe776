//! Stands in for a copy of p3-util 0.8.0 in the overlay's test, with some names of each kind. A call counts itself in
//! `CALLS` or returns a wrong result, so that the test sees whose body ran.
#![no_std]

use core::sync::atomic::{AtomicUsize, Ordering::Relaxed};

pub static CALLS: AtomicUsize = AtomicUsize::new(0);

fn count() {
    CALLS.fetch_add(1, Relaxed);
}

pub mod transpose {
    pub fn transpose<T: Copy + Send + Sync>(input: &[T], output: &mut [T], width: usize, height: usize) {
        crate::count();
        for (i, item) in input.iter().enumerate() {
            output[i % width * height + i / width] = *item;
        }
    }
}

pub fn reverse_slice_index_bits<F: Send + Sync>(vals: &mut [F]) {
    count();
    for i in 1..vals.len() {
        let j = i.reverse_bits() >> (vals.len().leading_zeros() + 1);
        if i < j {
            vals.swap(i, j);
        }
    }
}

macro_rules! words {
    ($($name:ident($($of:ty),*) -> $answer:ty: $wrong:expr;)*) => {
        $(
            #[must_use]
            pub const fn $name($(_: $of),*) -> $answer {
                $wrong
            }
        )*
    };
}

words! {
    log2_ceil_usize(usize) -> usize: 99;
    log2_ceil_u64(u64) -> u64: 99;
    log2_floor_usize(usize) -> usize: 99;
    log2_strict_usize(usize) -> usize: 99;
    log3_strict_usize(usize) -> usize: 99;
    checked_pow2(usize) -> Option<usize>: None;
    checked_log_size_sum(usize, usize) -> Option<(usize, usize)>: None;
    reverse_bits(usize, usize) -> usize: 99;
    reverse_bits_len(usize, usize) -> usize: 99;
}

#[must_use]
pub const fn indices_arr<const N: usize>() -> [usize; N] {
    [99; N]
}

#[must_use]
pub fn pretty_name<T: ?Sized>() -> &'static str {
    "the original's"
}

pub fn apply_to_chunks<const BUFLEN: usize, I: IntoIterator<Item = u8>, H: FnMut(&[u8])>(_: I, _: H) {
    count();
}

pub fn iter_array_chunks_padded<T: Copy, const N: usize>(
    _: impl IntoIterator<Item = T>,
    _: T,
) -> impl Iterator<Item = [T; N]> {
    core::iter::empty()
}

pub mod zip_eq {
    pub fn zip_eq<A, B, E>(_: A, _: B, err: E) -> Result<(), E> {
        Err(err)
    }
}

pub fn branch_hint() {
    count();
}

pub fn assert_clone<T: Clone>() {
    count();
}

pub fn assert_send<T: Send>() {
    count();
}

pub fn assert_sync<T: Sync>() {
    count();
}

pub mod linear_map {
    pub struct OfTheOriginal;
}

#[derive(Default)]
pub struct Kept(pub usize);

pub const PARALLEL: bool = cfg!(feature = "parallel");
